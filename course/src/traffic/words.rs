//! The words of a line of SENDS, taken one after the other.

use super::slots::THOUSAND;
use crate::numbers::{commas, counted};
use crate::rows::Word;
use plain::orders::{Flow, NUMBER};
use plain::table::{Queue, MOST_LINKS};
use std::fmt;

/// Far beyond any run that is looked at; keeps every product within 64 bits.
pub const MOST_INSTANT: u64 = 1_000_000_000_000;

/// Why SENDS can't be read, and where.
#[derive(Debug, PartialEq)]
pub struct Mistake {
    pub line: usize,
    pub column: usize,
    pub what: String,
}

impl fmt::Display for Mistake {
    fn fmt(&self, out: &mut fmt::Formatter) -> fmt::Result {
        write!(out, "{}:{}: {}", self.line, self.column, self.what)
    }
}

/// The words of one line, each with its column.
pub struct Words<'a> {
    pub line: usize,
    end: usize,
    words: Vec<Word<'a>>,
    next: usize,
}

impl<'a> Words<'a> {
    pub fn of(line: usize, words: Vec<Word<'a>>) -> Words<'a> {
        let end = words
            .last()
            .map_or(1, |(column, word)| column + word.chars().count());
        Words {
            line,
            end,
            words,
            next: 0,
        }
    }

    pub fn peek(&self) -> Option<&'a str> {
        self.words.get(self.next).map(|&(_, word)| word)
    }

    /// A mistake at the word that comes next, or at the end of the line.
    pub fn mistake<T>(&self, what: String) -> Result<T, Mistake> {
        let column = self
            .words
            .get(self.next)
            .map_or(self.end, |&(column, _)| column);
        Err(Mistake {
            line: self.line,
            column,
            what,
        })
    }

    /// Passes a word that must or may stand here.
    pub fn keyword(&mut self, word: &str) -> bool {
        let there = self.peek() == Some(word);
        self.next += usize::from(there);
        there
    }

    pub fn number(&mut self, name: &str, least: u64, most: u64) -> Result<u64, Mistake> {
        let Some(word) = self.peek() else {
            return self.mistake(format!("{name}: missing"));
        };
        if word.contains([',', '.', '\'', '_']) {
            let whole = match name == "instant" && word.contains('.') {
                true => "a flow's instants are whole µs: ",
                false => "",
            };
            return self.mistake(format!(
                "{name}: `{word}`: {whole}digits alone, without separators"
            ));
        }
        if !word.bytes().all(|byte| byte.is_ascii_digit()) {
            return self.mistake(format!("{name}: `{word}` is no number"));
        }
        match word.parse::<u64>() {
            Ok(number) if (least..=most).contains(&number) => {
                self.next += 1;
                Ok(number)
            }
            _ => self.mistake(format!(
                "{name}: {word} is out of range ({} to {})",
                commas(least),
                commas(most)
            )),
        }
    }

    /// The index of a held flow.
    pub fn flow(&mut self, flows: &[Flow]) -> Result<usize, Mistake> {
        let (least, most) = NUMBER.ranges[0];
        let number = self.number("flow", least, most)?;
        match flows.iter().position(|flow| flow.number == number) {
            Some(index) => Ok(index),
            None => {
                self.next -= 1;
                self.mistake(format!("flow {number} isn't held after the orders"))
            }
        }
    }

    /// The index of one of the table's links.
    pub fn link(&mut self, queues: &[Queue]) -> Result<usize, Mistake> {
        let number = self.number("link", 1, MOST_LINKS)?;
        let links = queues.last().map_or(0, |queue| queue.link);
        if number <= links {
            return Ok(number as usize - 1);
        }
        self.next -= 1;
        let links = counted(links as usize, "link", "links");
        self.mistake(format!("the table has no link {number}: it has {links}"))
    }

    /// An instant in thousandths of a µs: digits, or up to three decimals behind a point.
    pub fn moment(&mut self) -> Result<u64, Mistake> {
        let Some(word) = self.peek() else {
            return self.mistake("instant: missing".to_string());
        };
        let (whole, part) = word.split_once('.').unwrap_or((word, "0"));
        let digits =
            |text: &str| !text.is_empty() && text.bytes().all(|byte| byte.is_ascii_digit());
        if !digits(whole) || !digits(part) || part.len() > 3 {
            return self.mistake(format!(
                "instant: `{word}`: µs, up to three decimals behind a point, as 99.999"
            ));
        }
        let thousandths = format!("{part:0<3}").parse::<u64>().unwrap_or(0);
        let most = MOST_INSTANT * THOUSAND;
        let micros = whole.parse::<u64>().ok();
        let moment =
            micros.and_then(|micros| micros.checked_mul(THOUSAND)?.checked_add(thousandths));
        let Some(moment) = moment.filter(|&moment| moment <= most) else {
            let most = commas(MOST_INSTANT);
            return self.mistake(format!("instant: {word} is out of range (0 to {most})"));
        };
        self.next += 1;
        Ok(moment)
    }

    pub fn end(&self) -> Result<(), Mistake> {
        match self.peek() {
            None => Ok(()),
            Some(word) => self.mistake(format!("`{word}` isn't expected here")),
        }
    }
}
