//! A trainee's answers: rows of numbers.

use crate::numbers::{commas, counted};
use crate::rows::{rows, Word};
use std::collections::hash_map::Entry;
use std::collections::HashMap;

/// What is wrong with a sheet, by line and column.
pub struct Unreadable {
    pub line: usize,
    pub column: usize,
    pub words: String,
}

/// One row: the answer to an order line and, where given, bounds.
#[derive(Clone, Debug, PartialEq)]
pub struct Row {
    /// Where it stands in the sheet.
    pub at: usize,
    /// The order's line number, then code, place, link and level.
    pub line: u64,
    pub answer: [u64; 4],
    /// Delay, backlog and longest stay.
    pub bounds: [Option<u128>; 3],
}

pub const ANSWER_NAMES: [&str; 4] = ["code", "place", "link", "level"];
pub const BOUND_NAMES: [&str; 3] = ["delay", "backlog", "longest stay"];
const LEAST: usize = 1 + ANSWER_NAMES.len();
const MOST: usize = LEAST + BOUND_NAMES.len();

/// The rows of a sheet; one that nothing is filled in is none.
pub fn read(text: &str) -> Result<Vec<Row>, Vec<Unreadable>> {
    let mut found: Vec<Row> = Vec::new();
    let mut wrong = Vec::new();
    let mut stands_at = HashMap::new();
    for (at, words) in rows(text) {
        let unreadable = |column, words| Unreadable {
            line: at,
            column,
            words,
        };
        if words.iter().skip(1).all(|(_, word)| is_blank(word)) && words.len() > 1 {
            continue;
        }
        match read_row(at, &words) {
            Err((column, words)) => wrong.push(unreadable(column, words)),
            Ok(row) => match stands_at.entry(row.line) {
                Entry::Vacant(entry) => {
                    entry.insert(at);
                    found.push(row);
                }
                Entry::Occupied(entry) => {
                    let (line, other) = (commas(row.line), entry.get());
                    let words = format!("order line {line} has a row already, in line {other}");
                    wrong.push(unreadable(1, words));
                }
            },
        }
    }
    if wrong.is_empty() {
        Ok(found)
    } else {
        Err(wrong)
    }
}

/// A place of a worksheet that is left as it was printed.
fn is_blank(word: &str) -> bool {
    word.bytes().all(|byte| byte == b'_')
}

type Wrong = (usize, String);

fn read_row(at: usize, words: &[Word]) -> Result<Row, Wrong> {
    if !(LEAST..=MOST).contains(&words.len()) {
        let count = counted(words.len(), "number", "numbers");
        return Err((
            1,
            format!(
                "{count}; a row has line, code, place, link, level and, where worked out, delay, backlog and longest stay"
            ),
        ));
    }
    let mut numbers = Vec::new();
    for &(column, word) in words {
        let optional = numbers.len() >= LEAST;
        numbers.push(match word {
            _ if optional && (word == "-" || is_blank(word)) => None,
            _ => Some(number(word).ok_or((column, format!("`{word}` is no whole number")))?),
        });
    }
    let small = |index: usize| numbers[index].unwrap_or(0) as u64;
    Ok(Row {
        at,
        line: small(0),
        answer: [small(1), small(2), small(3), small(4)],
        bounds: [5, 6, 7].map(|index| numbers.get(index).copied().flatten()),
    })
}

/// A whole number, commas between groups of three or none.
fn number(word: &str) -> Option<u128> {
    if word.starts_with('+') {
        return None;
    }
    let digits: String = word.chars().filter(|&letter| letter != ',').collect();
    let value: u64 = digits.parse().ok()?;
    (digits == word || commas(value) == word).then_some(u128::from(value))
}
