//! The mistakes of a whole text: its lines', its size, files swapped.

use super::lines::{mistakes, Reader};
use super::Mistake;
use crate::numbers::commas;
use plain::columns::{lines, Field, Line};
use plain::faults::{Class, Fault, What};
use plain::orders;
use plain::programs::{MOST_ORDER_BYTES, MOST_ORDER_LINES};
use plain::table::{self, Entry, Queue, ENTRIES, MOST_TABLE_BYTES};

/// The mistakes of a table text, line by line.
pub fn table(text: &[u8]) -> Vec<Mistake> {
    if text.len() > MOST_TABLE_BYTES {
        return vec![size("bytes", text.len(), MOST_TABLE_BYTES)];
    }
    let fields: Vec<Field> = ENTRIES.iter().map(|entry| entry.field).collect();
    let (mut earlier, mut before): (Option<Queue>, Option<Queue>) = (None, None);
    let mut known = true;
    let found = by_line(text, |line| {
        let all = |line: &Line| {
            let (_, mut faults) = table::examine(line, before.as_ref());
            // What comes after a line that couldn't be read can't be out of turn.
            faults.retain(|fault| known || fault.class() <= Class::Range);
            faults.retain(|fault| !out_of_range(fault));
            faults.retain(|fault| !agrees(fault, before.as_ref(), earlier.as_ref()));
            lacking_once(faults)
        };
        let reader = Reader {
            faults: &all,
            fields: &fields,
        };
        let found = mistakes(line, &reader);
        let trimmed = trim(line);
        let (queue, _) = table::examine(&trimmed, before.as_ref());
        known = queue.is_some();
        earlier = std::mem::replace(&mut before, queue);
        found
    });
    found
}

/// Whether a line differs from the one before only as that one does from the one before it: the slip is the middle one's.
fn agrees(fault: &Fault, before: Option<&Queue>, earlier: Option<&Queue>) -> bool {
    let (What::Differs { value, .. }, Some(before), Some(earlier)) = (&fault.what, before, earlier)
    else {
        return false;
    };
    let known = entry_of(fault).map(|entry| (entry.get)(earlier));
    earlier.link == before.link && known == Some(*value)
}

/// Whether a line differs from the one before by a number out of range, its own or the other's: that is said already.
fn out_of_range(fault: &Fault) -> bool {
    let What::Differs { value, before } = fault.what else {
        return false;
    };
    let outside = |number: u64| entry_of(fault)?.field.fault_of(number);
    [value, before]
        .into_iter()
        .any(|number| outside(number).is_some())
}

fn entry_of(fault: &Fault) -> Option<&'static Entry> {
    ENTRIES.iter().find(|entry| entry.field.name == fault.field)
}

/// Of the fields that this line lacks, or the one before, only the first: a line that ends too soon lacks all after it.
fn lacking_once(mut faults: Vec<Fault>) -> Vec<Fault> {
    let mut seen = [false; 2];
    faults.retain(|fault| match fault.what {
        What::Differs { value: 0, .. } => !std::mem::replace(&mut seen[0], true),
        What::Differs { before: 0, .. } => !std::mem::replace(&mut seen[1], true),
        _ => true,
    });
    faults
}

/// A line without a byte order mark and CR, so that the next line can be judged after it.
fn trim<'a>(line: &Line<'a>) -> Line<'a> {
    let bytes = line.bytes;
    let bytes = bytes.strip_prefix(b"\xef\xbb\xbf").unwrap_or(bytes);
    Line {
        bytes: bytes.strip_suffix(b"\r").unwrap_or(bytes),
        ended: line.ended,
    }
}

/// The mistakes of an order text, line by line.
pub fn orders(text: &[u8]) -> Vec<Mistake> {
    let mut found = Vec::new();
    if text.len() > MOST_ORDER_BYTES {
        found.push(size("bytes", text.len(), MOST_ORDER_BYTES));
    }
    let count = lines(text).len();
    if count > MOST_ORDER_LINES {
        found.push(size("lines", count, MOST_ORDER_LINES));
    }
    if !found.is_empty() {
        // Refused for its size, it isn't read.
        return found;
    }
    let fields = orders::all_fields();
    let all = |line: &Line| orders::examine(line).err().unwrap_or_default();
    let reader = Reader {
        faults: &all,
        fields: &fields,
    };
    by_line(text, |line| mistakes(line, &reader))
}

fn size(what: &str, found: usize, most: usize) -> Mistake {
    Mistake {
        line: 0,
        column: 0,
        field: String::new(),
        words: format!("{} {what}, at most {}", commas(found), commas(most)),
    }
}

/// Each line's mistakes with its number. Where every line ends in CR LF, that is said once.
fn by_line(text: &[u8], mut of_line: impl FnMut(&Line) -> Vec<Mistake>) -> Vec<Mistake> {
    let all = lines(text);
    let every = all.len() > 1 && all.iter().all(|line| line.bytes.ends_with(b"\r"));
    let mut found = Vec::new();
    for (index, line) in all.iter().enumerate() {
        for mut mistake in of_line(line) {
            mistake.line = index + 1;
            let at_end = mistake.column == line.bytes.len() && mistake.field.is_empty();
            if every && at_end && line.bytes.ends_with(b"\r") {
                if index > 0 {
                    continue;
                }
                mistake.words = format!("CR LF: all {} lines end so, not in LF alone", all.len());
            }
            found.push(mistake);
        }
    }
    found
}

/// Whether most lines of a text are read without a fault in their columns.
fn mostly(text: &[u8], faults: impl Fn(&Line) -> Vec<Fault>) -> bool {
    let all = lines(text);
    let fits = |line: &&Line| {
        faults(&trim(line))
            .iter()
            .all(|fault| fault.class() != Class::Columns)
    };
    2 * all.iter().filter(fits).count() > all.len()
}

/// Whether the table text holds order lines, or the order text table lines, and the other nothing else.
pub fn swapped(table_text: &[u8], order_text: &[u8]) -> bool {
    let order_faults = |line: &Line| orders::examine(line).err().unwrap_or_default();
    let table_faults = |line: &Line| table::examine(line, None).1;
    let first = mostly(table_text, order_faults);
    let second = mostly(order_text, table_faults);
    match (table_text.is_empty(), order_text.is_empty()) {
        (false, false) => first && second,
        (false, true) => first,
        (true, false) => second,
        (true, true) => false,
    }
}
