//! Runs stored cases and compares what would be printed, byte by byte.

use crate::lists::{HANDOVERS, REPLAYS};
use crate::versions::versions;
use plain::handover::{handover, Printed};
use plain::offers::offers;
use plain::programs::{admit, admit_by, replay};
use std::fs;
use std::io;
use std::path::{Path, PathBuf};

/// A file that can't be opened counts as empty.
pub fn text(folder: &Path, name: &str) -> Vec<u8> {
    fs::read(folder.join(name)).unwrap_or_default()
}

/// What `admit` prints in this folder.
pub fn admit_in(folder: &Path) -> Vec<u8> {
    admit(&text(folder, "table.txt"), &text(folder, "orders.txt"))
}

/// What `replay` prints in this folder.
pub fn replay_in(folder: &Path) -> Vec<u8> {
    replay(&text(folder, "table.txt"), &text(folder, "calls.txt"))
}

/// What `handover` leaves in this folder.
pub fn handover_in(folder: &Path) -> Printed {
    handover(&text(folder, "table.txt"), &text(folder, "calls.txt"))
}

/// What `offers` leaves in this folder.
pub fn offers_in(folder: &Path) -> Printed {
    offers(&text(folder, "offers.txt"))
}

/// The folders below `folder` that hold a printed.txt, by name.
fn cases(folder: &Path) -> io::Result<Vec<PathBuf>> {
    let mut found = Vec::new();
    for entry in fs::read_dir(folder)? {
        let path = entry?.path();
        if path.join("printed.txt").is_file() {
            found.push(path);
        }
    }
    found.sort();
    Ok(found)
}

/// Whether a case is of this program; one of none of the list programs is of `admit`.
fn is_of(case: &Path, program: &str) -> bool {
    let name = case.file_name().unwrap_or_default();
    name.to_string_lossy().contains(program)
}

fn differing_line(one: &[u8], other: &[u8]) -> usize {
    let same = one.iter().zip(other).take_while(|(a, b)| a == b).count();
    one[..same].iter().filter(|&&byte| byte == b'\n').count() + 1
}

/// What each version prints in this folder, the plain one first.
fn printed_in(case: &Path) -> Vec<(&'static str, Vec<u8>)> {
    let mut found = Vec::new();
    let table = text(case, "table.txt");
    let calls = text(case, "calls.txt");
    if is_of(case, "replay") {
        found.push(("plain", replay_in(case)));
        for (name, replay) in REPLAYS {
            found.push((name, replay(&table, &calls)));
        }
    } else if is_of(case, "handover") {
        found.push(("plain", handover_in(case).out));
        for (name, handover) in HANDOVERS {
            found.push((name, handover(&table, &calls).out));
        }
    } else if is_of(case, "offers") {
        found.push(("plain", offers_in(case).out));
    } else {
        found.push(("plain", admit_in(case)));
        for (name, batch) in versions() {
            let orders = text(case, "orders.txt");
            let batch = |table: &[u8], orders: &[u8], answers: &mut [u8]| {
                let (code, line) = batch(table, orders, answers);
                (u64::from(code), u64::from(line))
            };
            found.push((name, admit_by(batch, &table, &orders)));
        }
    }
    found
}

/// True if there is a case and every version agrees with every case.
pub fn run(folder: &Path) -> io::Result<bool> {
    let (mut agreed, mut differed) = (0, 0);
    for case in cases(folder)? {
        let stored = fs::read(case.join("printed.txt"))?;
        let before = differed;
        for (name, printed) in printed_in(&case) {
            if printed != stored {
                differed += 1;
                let line = differing_line(&printed, &stored);
                println!("{}: {name} differs at line {line}", case.display());
            }
        }
        agreed += usize::from(differed == before);
    }
    println!("vectors: {agreed} agree, {differed} differences");
    Ok(differed == 0 && agreed > 0)
}
