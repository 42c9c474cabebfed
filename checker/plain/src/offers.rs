//! What the program `offers` leaves: a gate opened by the first line of a list, and a frame offered to it by each later one.

use crate::columns::{lines, put, Field, Line};
use crate::gate::{offer, open, Gate, PASSED, TURN};
use crate::handover::Printed;
use crate::programs::put_end;

pub const MOST_OFFER_BYTES: usize = 200_000;
const TOO_LONG: &[u8] = b"offers: offers.txt: only the first 200,000 bytes count\n";

/// The first line; 61 judges its numbers.
const OPENING: [Field; 4] = [
    Field::new("rate", "kbit/s", (1, 9), &[]),
    Field::new("burst", "bytes", (10, 17), &[]),
    Field::new("largest frame", "bytes", (18, 22), &[]),
    Field::new("reading", "µs", (23, 31), &[]),
];
/// Each later line; 60 judges the length.
const OFFER: [Field; 2] = [
    Field::new("length", "bytes", (1, 5), &[]),
    Field::new("time since the line before", "µs", (6, 14), &[]),
];

/// The numbers of a line that is ended and has just these fields.
fn read<const N: usize>(fields: &[Field; N], line: &Line) -> Option<[u64; N]> {
    if !line.ended || line.bytes.len() != fields[N - 1].last {
        return None;
    }
    let mut values = [0; N];
    for (field, value) in fields.iter().zip(&mut values) {
        *value = field.read(line.bytes).ok()?;
    }
    Some(values)
}

fn write<const N: usize>(fields: &[Field; N], values: [u64; N]) -> Vec<u8> {
    let mut line = Vec::new();
    for (field, value) in fields.iter().zip(values) {
        field.put(&mut line, value);
    }
    line.push(b'\n');
    line
}

/// The first line's text, with its LF.
pub fn write_opening(rate: u64, burst: u64, frame: u64, reading: u64) -> Vec<u8> {
    write(&OPENING, [rate, burst, frame, reading])
}

/// A later line's text, with its LF.
pub fn write_offer(length: u64, wait: u64) -> Vec<u8> {
    write(&OFFER, [length, wait])
}

/// What the clock shows so many µs after it showed 0.
fn reading(time: u64) -> u32 {
    (time % TURN) as u32
}

/// What was answered to the lines of a list.
#[derive(Debug, Default, PartialEq)]
pub struct Offered {
    /// The gate after each line, and its code.
    pub answers: Vec<(Gate, u32)>,
    /// The number of the line that ended the list.
    pub end: Option<usize>,
}

/// Makes a list's offers, up to the first line that isn't one; none where there is no gate.
pub fn make_offers(list: &[u8]) -> Offered {
    let given = lines(&list[..list.len().min(MOST_OFFER_BYTES)]);
    let mut made = Offered::default();
    let Some((first, later)) = given.split_first() else {
        return made;
    };
    let Some([rate, burst, frame, mut time]) = read(&OPENING, first) else {
        made.end = Some(1);
        return made;
    };
    let (mut gate, code) = open(rate, burst, frame, reading(time));
    made.answers.push((gate, code));
    if code != PASSED {
        return made;
    }
    for (line, number) in later.iter().zip(2..) {
        let Some([length, wait]) = read(&OFFER, line) else {
            made.end = Some(number);
            return made;
        };
        time += wait;
        let answer = offer(gate, length, reading(time));
        gate = answer.0;
        made.answers.push(answer);
    }
    made
}

/// What `offers` leaves of a list: on standard error only that it is longer than what counts of it.
pub fn offers(list: &[u8]) -> Printed {
    let made = make_offers(list);
    let mut out = Vec::new();
    for (gate, code) in &made.answers {
        put(&mut out, u64::from(*code), 3);
        put(&mut out, gate.tokens, 14);
        out.push(b'\n');
    }
    put_end(&mut out, made.end);
    let said = if list.len() > MOST_OFFER_BYTES {
        TOO_LONG.to_vec()
    } else {
        Vec::new()
    };
    Printed { out, said }
}
