//! The trace: a line for each stay, columns parted by tabs.

use super::frames::Stay;
use super::hall::Hall;
use super::slots::{self, Slots};
use super::watch::Watch;
use crate::numbers::thousandths;
use std::io::{self, Write};

/// What the trace and the page tell of a stay.
pub const COLUMNS: [&str; 13] = [
    "flow",
    "frame",
    "link",
    "level",
    "came",
    "started",
    "bit",
    "gone",
    "stay",
    "threshold",
    "bytes",
    "reached",
    "behind",
];

/// Thousandths as a number without commas, for programs.
fn plain(number: Slots) -> String {
    thousandths(number).replace(',', "")
}

/// A stay's numbers by these columns. It started at the instant at or before its first bit, after the bits of that interval
/// before it; after a laptop's frame that may be no whole number of them.
pub fn numbers(hall: &Hall, stay: &Stay) -> [String; COLUMNS.len()] {
    let queue = &hall.queues[stay.queue];
    let micro = slots::before(1, queue.speed);
    let behind = stay.frame.behind.map_or(0, |behind| behind.left);
    let whole = |number: u64| number.to_string();
    [
        whole(hall.flows[stay.frame.flow].number),
        whole(stay.frame.number),
        whole(queue.link),
        whole(queue.level),
        whole(stay.frame.came),
        (stay.first / micro).to_string(),
        plain(stay.first % micro),
        whole(stay.gone),
        whole(stay.length()),
        whole(queue.threshold),
        whole(stay.frame.bytes),
        whole(hall.reached(stay)),
        plain(behind.div_ceil(Slots::from(queue.speed))),
    ]
}

/// Looks on and writes each stay as it ends.
pub struct Trace<'a, W: Write> {
    hall: &'a Hall,
    out: W,
    failed: Option<io::Error>,
}

impl<'a, W: Write> Trace<'a, W> {
    pub fn new(hall: &'a Hall, mut out: W) -> Trace<'a, W> {
        let failed = writeln!(out, "{}", COLUMNS.join("\t")).err();
        Trace { hall, out, failed }
    }

    pub fn finish(mut self) -> io::Result<()> {
        match self.failed {
            Some(error) => Err(error),
            None => self.out.flush(),
        }
    }
}

impl<W: Write> Watch for Trace<'_, W> {
    fn stay(&mut self, stay: &Stay) {
        if self.failed.is_some() {
            return;
        }
        let row = numbers(self.hall, stay).join("\t");
        let written = writeln!(self.out, "{row}");
        self.failed = written.err();
    }
}
