//! Document 01, "Columns": the lines of a text and the numbers in their columns.

use crate::faults::{Fault, What};

/// A line without its LF; the bytes after the last LF are a line that isn't ended.
#[derive(Clone, Copy)]
pub struct Line<'a> {
    pub bytes: &'a [u8],
    pub ended: bool,
}

pub fn lines(text: &[u8]) -> Vec<Line<'_>> {
    let mut found = Vec::new();
    let mut rest = text;
    while !rest.is_empty() {
        match rest.iter().position(|&byte| byte == b'\n') {
            Some(at) => {
                found.push(Line {
                    bytes: &rest[..at],
                    ended: true,
                });
                rest = &rest[at + 1..];
            }
            None => {
                found.push(Line {
                    bytes: rest,
                    ended: false,
                });
                rest = &[];
            }
        }
    }
    found
}

/// A field of a line: its name and unit, its columns counted from 1, and the ranges of its number; none where another
/// cause judges it.
#[derive(Clone, Copy, Debug)]
pub struct Field {
    pub name: &'static str,
    pub unit: &'static str,
    pub first: usize,
    pub last: usize,
    pub ranges: &'static [(u64, u64)],
}

impl Field {
    pub const fn new(
        name: &'static str,
        unit: &'static str,
        columns: (usize, usize),
        ranges: &'static [(u64, u64)],
    ) -> Field {
        Field {
            name,
            unit,
            first: columns.0,
            last: columns.1,
            ranges,
        }
    }

    /// The same field so many columns further right.
    pub fn moved(&self, by: usize) -> Field {
        Field {
            first: self.first + by,
            last: self.last + by,
            ..*self
        }
    }

    /// The number in the field's columns, or the first thing wrong with them.
    pub fn read(&self, line: &[u8]) -> Result<u64, Fault> {
        let fault = |column, what| Fault {
            column,
            field: self.name,
            what,
        };
        let Some(columns) = line.get(self.first - 1..self.last) else {
            let columns = line.len();
            let there = line.get(self.first - 1..).unwrap_or_default();
            return Err(match there.iter().position(foreign) {
                Some(at) => fault(self.first + at, What::Byte(there[at])),
                None => fault(columns + 1, What::Short { columns }),
            });
        };
        number(columns).map_err(|(at, what)| fault(self.first + at, what))
    }

    /// Whether a number is in the field's range.
    pub fn fault_of(&self, value: u64) -> Option<Fault> {
        let within = |&(least, most): &(u64, u64)| (least..=most).contains(&value);
        if self.ranges.is_empty() || self.ranges.iter().any(within) {
            return None;
        }
        Some(Fault {
            column: self.first,
            field: self.name,
            what: What::Range {
                value,
                ranges: self.ranges,
            },
        })
    }

    /// Writes a number into the field's columns at the end of a line.
    pub fn put(&self, out: &mut Vec<u8>, value: u64) {
        put(out, value, self.last + 1 - self.first);
    }
}

/// Neither a digit nor a blank.
fn foreign(byte: &u8) -> bool {
    !(byte.is_ascii_digit() || *byte == b' ')
}

/// The number that fills these columns from the right; else what is wrong, and at which of them.
fn number(columns: &[u8]) -> Result<u64, (usize, What)> {
    if let Some(at) = columns.iter().position(foreign) {
        return Err((at, What::Byte(columns[at])));
    }
    let Some(start) = columns.iter().position(|&byte| byte != b' ') else {
        return Err((0, What::Blank));
    };
    let digits = &columns[start..];
    if let Some(gap) = digits.iter().position(|&byte| byte == b' ') {
        return Err((start + gap, What::Gap));
    }
    if digits.len() > 1 && digits[0] == b'0' {
        return Err((start, What::LeadingZero));
    }
    let value = |sum: u64, &digit: &u8| 10 * sum + u64::from(digit - b'0');
    Ok(digits.iter().fold(0, value))
}

/// The number in columns `first` to `last`, counted from 1; none where it is malformed.
pub fn field(line: &[u8], first: usize, last: usize) -> Option<u64> {
    number(line.get(first - 1..last)?).ok()
}

/// Writes a number right-justified in so many columns.
pub fn put(out: &mut Vec<u8>, value: u64, columns: usize) {
    out.extend_from_slice(format!("{value:>columns$}").as_bytes());
}
