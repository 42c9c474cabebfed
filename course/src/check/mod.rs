//! `course check`: typing mistakes in a hall's two files, all of them.

mod lines;
mod texts;
mod words;

use crate::arguments::{Arguments, Command};
use crate::folder::{read_file, ORDERS, TABLE};
use crate::numbers::counted;
use crate::status::{Outcome, Status};
use std::path::Path;
pub use words::words;

pub const COMMAND: Command = Command {
    name: "check",
    usage: "FOLDER",
    about: "typing mistakes in table.txt and orders.txt, with line and column",
    help: "\
Reads table.txt and orders.txt of FOLDER and names every typing mistake:

    orders.txt:13:9: rate: 1 column too few before its number

file, line, column counted from 1, the field, and what is wrong. These are exactly what a batch refuses with 1 to 5
(the table), 10 and 11 (an order line) or 41 (too many orders), and files that can't be read, which `admit` counts as
empty. A flow that is refused for another cause is no typing mistake: `course explain` says why it is.

Exit status: 0 no mistake; 1 a mistake; 2 usage.",
    words: 1..=1,
    choices: &[],
    run: check,
};

/// Something wrong with a text; line and column are 0 where the whole text is meant.
#[derive(Clone, Debug, PartialEq)]
pub struct Mistake {
    pub line: usize,
    pub column: usize,
    /// Empty where no field is meant.
    pub field: String,
    pub words: String,
}

impl Mistake {
    pub fn shown(&self, file: &str) -> String {
        let place = match self.line {
            0 => file.to_string(),
            line => format!("{file}:{line}:{}", self.column),
        };
        if self.field.is_empty() {
            format!("{place}: {}", self.words)
        } else {
            format!("{place}: {}: {}", self.field, self.words)
        }
    }
}

/// The mistakes of a table text and of an order text; the second list is empty and the first has one line where the two
/// seem swapped.
pub fn mistakes(table: &[u8], orders: &[u8]) -> (Vec<Mistake>, Vec<Mistake>) {
    if texts::swapped(table, orders) {
        let words = "this file and orders.txt seem to be swapped: one holds the lines of the other";
        let swapped = Mistake {
            line: 0,
            column: 0,
            field: String::new(),
            words: words.to_string(),
        };
        return (vec![swapped], Vec::new());
    }
    (texts::table(table), texts::orders(orders))
}

/// The mistakes of one order line.
pub fn order_line(bytes: &[u8], ended: bool) -> Vec<Mistake> {
    let end: &[u8] = if ended { b"\n" } else { b"" };
    texts::orders(&[bytes, end].concat())
}

fn check(arguments: &Arguments) -> Result<Outcome, Outcome> {
    let folder = Path::new(&arguments.words[0]);
    let mut printed = String::new();
    let mut count = 0;
    let mut read = |name: &str| {
        read_file(&folder.join(name)).unwrap_or_else(|why| {
            count += 1;
            printed += &format!("{why} (admit counts it as empty)\n");
            Vec::new()
        })
    };
    let (table, orders) = (read(TABLE), read(ORDERS));
    let (of_table, of_orders) = mistakes(&table, &orders);
    for (file, found) in [(TABLE, of_table), (ORDERS, of_orders)] {
        for mistake in found {
            count += 1;
            printed += &format!("{}\n", mistake.shown(file));
        }
    }
    if count > 0 {
        printed += &format!("{}\n", counted(count, "mistake", "mistakes"));
        return Ok(Outcome::fine(printed).with_status(Status::Wrong));
    }
    let queues = counted(plain::columns::lines(&table).len(), "queue", "queues");
    let orders = counted(plain::columns::lines(&orders).len(), "order", "orders");
    Ok(Outcome::fine(format!(
        "no typing mistake: {queues}, {orders}\n"
    )))
}
