//! The mistakes of one line, told so that one slip of the typist is one mistake.

use super::words::words;
use super::Mistake;
use crate::numbers::counted;
use plain::columns::{Field, Line};
use plain::faults::{first_class, Class, Fault, What};

const MARK: &[u8] = b"\xef\xbb\xbf";

/// How a kind of line is read: all that is wrong with it, and where its fields stand.
pub struct Reader<'a> {
    pub faults: &'a dyn Fn(&Line) -> Vec<Fault>,
    pub fields: &'a [Field],
}

fn told(fault: &Fault) -> Mistake {
    Mistake {
        line: 0,
        column: fault.column,
        field: fault.field.to_string(),
        words: words(&fault.what),
    }
}

fn named(column: usize, field: &str, words: String) -> Mistake {
    Mistake {
        line: 0,
        column,
        field: field.to_string(),
        words,
    }
}

/// The mistakes of a line; none exactly where it has no fault.
pub fn mistakes(line: &Line, reader: &Reader) -> Vec<Mistake> {
    let faults = (reader.faults)(line);
    if faults.is_empty() || !line.ended {
        return faults.iter().map(told).collect();
    }
    if let Some(rest) = line.bytes.strip_prefix(MARK) {
        let mark = named(
            1,
            "",
            "a byte order mark before the first column".to_string(),
        );
        return with_rest(mark, rest, MARK.len(), reader);
    }
    if let Some(rest) = line.bytes.strip_suffix(b"\r") {
        let mark = named(line.bytes.len(), "", "a CR before the LF".to_string());
        return with_rest(mark, rest, 0, reader);
    }
    // A field left blank, the rest in place: moving what follows would give it another meaning.
    if let [Fault {
        what: What::Blank, ..
    }] = faults[..]
    {
        return faults.iter().map(told).collect();
    }
    if let Some((slip, rest)) = shift(line.bytes, &faults, reader) {
        let rest = rest.iter().map(told);
        return std::iter::once(slip).chain(rest).collect();
    }
    if out_of_step(&faults) {
        return joined(line.bytes, reader).unwrap_or_else(|| few(&faults));
    }
    faults.iter().map(told).collect()
}

fn whole(bytes: &[u8]) -> Line<'_> {
    Line { bytes, ended: true }
}

/// A mistake and those of the line without what it names, their columns as in the file.
fn with_rest(first: Mistake, rest: &[u8], offset: usize, reader: &Reader) -> Vec<Mistake> {
    let mut all = vec![first];
    for mut mistake in mistakes(&whole(rest), reader) {
        mistake.column += offset;
        all.push(mistake);
    }
    all
}

/// Whether the faults look like those of a line some of whose columns are too many or too few.
fn out_of_step(faults: &[Fault]) -> bool {
    let length = |what: &What| {
        matches!(
            what,
            What::Short { .. } | What::Long { .. } | What::Length { .. }
        )
    };
    let apart = |what: &What| matches!(what, What::Gap | What::Blank);
    let count = |test: &dyn Fn(&What) -> bool| faults.iter().filter(|f| test(&f.what)).count();
    count(&length) > 0 || count(&apart) > 1
}

/// A slip, and what else is wrong with the line once it is mended.
type Mended = (Mistake, Vec<Fault>);

/// Where a line would be right with some blanks more or fewer before one field. One that leaves no other fault counts
/// first, then the fewest blanks, and of several fields the last one.
fn shift(line: &[u8], faults: &[Fault], reader: &Reader) -> Option<Mended> {
    // Where all fields can be read, what is too much stands behind them; a digit may have been pushed there.
    let pushed = line.last().is_some_and(u8::is_ascii_digit);
    let misplaced = |fault: &&Fault| {
        let of_field = pushed || !fault.field.is_empty();
        of_field && fault.class() == Class::Columns
    };
    let columns = faults.iter().filter(misplaced).map(|fault| fault.column);
    let first = columns.min()?;
    let before = |field: &&Field| field.first <= first;
    let fields: Vec<&Field> = reader.fields.iter().rev().filter(before).collect();
    let width = |field: &Field| field.last + 1 - field.first;
    let widest = fields.iter().map(|field| width(field)).max()?;
    let ways = (1..=widest).flat_map(|count| {
        let wide = fields.iter().filter(move |field| width(field) >= count);
        wide.flat_map(move |field| moved(line, field, count, reader))
    });
    let mut fewest = None;
    for (slip, rest) in ways {
        if rest.is_empty() {
            return Some((slip, rest));
        }
        fewest.get_or_insert((slip, rest));
    }
    fewest
}

/// The same of one field and so many blanks.
fn moved(line: &[u8], field: &Field, count: usize, reader: &Reader) -> Vec<Mended> {
    let few = with_blanks(line, field.first - 1, count);
    let many = without_blanks(line, field.first - 1, count);
    let mut all = Vec::new();
    for (repaired, word) in [(few, "few"), (many, "many")] {
        let Some(repaired) = repaired else { continue };
        let mut rest = (reader.faults)(&whole(&repaired));
        if first_class(&rest) != Some(Class::Columns) {
            let columns = counted(count, "column", "columns");
            let last = word == "few" && repaired.len() == field.last;
            let hint = if last { hint(field) } else { "" };
            // The line before has what is behind: then it is that, and nothing differs.
            if !hint.is_empty() && rest.iter().any(|fault| fault.column > field.last) {
                rest.retain(|fault| fault.column < field.first);
            }
            let words = format!("{columns} too {word} before its number{hint}");
            all.push((named(field.first, field.name, words), rest));
        }
    }
    all
}

/// What the last number of a line may be instead: mended as told, it would be right and mean something else.
fn hint(field: &Field) -> &'static str {
    match field.name {
        "fixed delay" => {
            "; a best-effort frame stands behind it, in columns 44-48: write the fixed delay first, 0 where there is none"
        }
        _ => "",
    }
}

fn with_blanks(line: &[u8], at: usize, count: usize) -> Option<Vec<u8>> {
    let (before, after) = line.split_at_checked(at)?;
    Some([before, &vec![b' '; count], after].concat())
}

/// Nothing where no number follows.
fn without_blanks(line: &[u8], at: usize, count: usize) -> Option<Vec<u8>> {
    let (before, rest) = line.split_at_checked(at)?;
    let (taken, after) = rest.split_at_checked(count)?;
    let blank = taken.iter().all(|&byte| byte == b' ');
    (blank && !after.is_empty()).then(|| [before, after].concat())
}

/// Where a line is two, each right by itself: that.
fn joined(line: &[u8], reader: &Reader) -> Option<Vec<Mistake>> {
    let right = |part: &[u8]| {
        let class = first_class(&(reader.faults)(&whole(part)));
        class.is_none_or(|class| class > Class::Range)
    };
    let at = (1..line.len()).find(|&at| right(&line[..at]) && right(&line[at..]))?;
    let words = "another line begins here: the LF before it is missing";
    Some(vec![named(at + 1, "", words.to_string())])
}

/// Of a line of a wrong length: bytes that are no digit, else the first field that is wrong, and the length. The fields
/// after a slip are wrong only because of it.
fn few(faults: &[Fault]) -> Vec<Mistake> {
    let foreign = |fault: &&Fault| matches!(fault.what, What::Byte(_));
    let mut kept: Vec<&Fault> = faults.iter().filter(foreign).collect();
    if kept.is_empty() {
        kept.extend(
            faults
                .iter()
                .min_by_key(|fault| (fault.class(), fault.column)),
        );
    }
    let long = |fault: &&Fault| matches!(fault.what, What::Long { .. } | What::Length { .. });
    for fault in faults.iter().filter(long) {
        if !kept.contains(&fault) {
            kept.push(fault);
        }
    }
    kept.into_iter().map(told).collect()
}
