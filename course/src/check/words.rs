//! What is wrong with a line, in words.

use crate::numbers::{commas, counted};
use crate::titles::queue_name;
use plain::faults::What;
use plain::orders::{Hop, KINDS};
use plain::table::{LENGTHS, MOST_LEVELS, MOST_LINKS};

/// `1 to 65,535`; several ranges joined by `or`.
fn ranges(ranges: &[(u64, u64)]) -> String {
    let one = |&(least, most): &(u64, u64)| {
        if least == most {
            commas(least)
        } else {
            format!("{} to {}", commas(least), commas(most))
        }
    };
    ranges.iter().map(one).collect::<Vec<_>>().join(" or ")
}

/// A byte that is neither a digit nor a blank.
fn byte(byte: u8) -> String {
    match byte {
        b',' => "a comma".to_string(),
        b'.' => "a point".to_string(),
        b'+' | b'-' => format!("a sign, `{}`", char::from(byte)),
        b'\t' => "a tab".to_string(),
        b'\r' => "a CR".to_string(),
        letter if letter.is_ascii_alphabetic() => format!("a letter, `{}`", char::from(letter)),
        other if other.is_ascii_graphic() => format!("`{}`, no digit", char::from(other)),
        other => format!("byte {other:#04x}, no digit"),
    }
}

fn turn((link, level): (u64, u64), before: Option<(u64, u64)>) -> String {
    let queue = |(link, level): (u64, u64)| queue_name(Hop { link, level });
    let expected = match before {
        None => format!("{} comes first", queue((1, 1))),
        Some((last, level)) => {
            let next_level = (level < MOST_LEVELS).then_some((last, level + 1));
            let next_link = (last < MOST_LINKS).then_some((last + 1, 1));
            let next = [next_level, next_link].into_iter().flatten();
            let named: Vec<String> = next.map(queue).collect();
            match named.is_empty() {
                true => "no line comes here".to_string(),
                false => format!("{} comes here", named.join(" or ")),
            }
        }
    };
    format!("{} is out of turn: {expected}", queue((link, level)))
}

/// What an order without a path ends with, by its columns; nothing for other lines.
fn ending(columns: usize) -> String {
    let kind = KINDS
        .iter()
        .find(|kind| !kind.path && kind.head() == columns);
    let last = kind.and_then(|kind| Some((kind.word, kind.fields.last()?.name)));
    last.map_or(String::new(), |(word, field)| {
        format!(": a {word} ends with its {field}")
    })
}

/// `36, 43 or 48`.
fn lengths() -> String {
    let shown = LENGTHS.map(|length| length.to_string());
    let (last, before) = shown.split_last().expect("a length");
    format!("{} or {last}", before.join(", "))
}

fn differs(value: u64, before: u64) -> String {
    // A field that may be 0 is one that a line may lack.
    let lacking = match value.min(before) {
        0 => "; a line without these columns means 0",
        _ => "",
    };
    format!(
        "{} differs from {} in the line before, of the same link{lacking}",
        commas(value),
        commas(before)
    )
}

pub fn words(what: &What) -> String {
    match what {
        What::Unended => "no LF at the end of the last line".to_string(),
        What::Short { columns } => {
            format!(
                "the line ends after {}",
                counted(*columns, "column", "columns")
            )
        }
        What::Long { columns, most } => format!(
            "{} too many: the line has {}, {most} are right{}",
            counted(columns - most, "column", "columns"),
            commas(columns),
            ending(*most)
        ),
        What::Length { columns } => {
            format!("the line has {columns} columns, {} are right", lengths())
        }
        What::Blank => "no number".to_string(),
        What::Byte(found) => byte(*found),
        What::Gap => "a blank right of a digit".to_string(),
        What::LeadingZero => "a leading zero".to_string(),
        What::Range {
            value,
            ranges: allowed,
        } => {
            format!("{} is out of range, {}", commas(value), ranges(allowed))
        }
        What::Turn { value, before } => turn(*value, *before),
        What::Past { value, most } => format!("{value} is past the last, {most}"),
        What::SameEnds { node } => format!("the link ends where it starts, at node {node}"),
        What::Differs { value, before } => differs(*value, *before),
    }
}
