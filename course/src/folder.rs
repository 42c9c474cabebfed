//! The two files of a hall's folder.

use crate::status::{Outcome, Status};
use std::fs;
use std::io;
use std::path::{Path, PathBuf};

pub const TABLE: &str = "table.txt";
pub const ORDERS: &str = "orders.txt";

/// A hall as its folder gives it.
pub struct Folder {
    pub path: PathBuf,
    pub table: Vec<u8>,
    pub orders: Vec<u8>,
}

/// The bytes of a file, or why it can't be read, in words.
pub fn read_file(path: &Path) -> Result<Vec<u8>, String> {
    fs::read(path).map_err(|error| format!("{}: can't be read: {}", path.display(), why(&error)))
}

/// What ends a command that can't write a file.
pub fn cannot_write(path: &Path, error: &io::Error) -> Outcome {
    let words = format!("{}: can't be written: {}", path.display(), why(error));
    Outcome::failed(Status::Wrong, words)
}

/// The system's words without its number for them.
pub fn why(error: &io::Error) -> String {
    let words = error.to_string();
    let kept = words.split(" (os error").next();
    kept.unwrap_or_default().to_string()
}

impl Folder {
    /// Both files; one that can't be read ends the command.
    pub fn read(path: &str) -> Result<Folder, Outcome> {
        let path = PathBuf::from(path);
        let file = |name: &str| {
            read_file(&path.join(name)).map_err(|why| format!("{why} (admit counts it as empty)\n"))
        };
        match (file(TABLE), file(ORDERS)) {
            (Ok(table), Ok(orders)) => Ok(Folder {
                table,
                orders,
                path,
            }),
            (table, orders) => {
                let why: String = [table.err(), orders.err()].into_iter().flatten().collect();
                Err(Outcome::failed(Status::Wrong, why))
            }
        }
    }
}
