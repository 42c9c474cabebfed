//! Document 01's queue table, with W-201's fixed delay and W-202's best-effort frame: what a table text says, or the code
//! and line of its first fault.

use crate::causes;
use crate::columns::{lines, Field, Line};
use crate::faults::{first_class, Class, Fault, What};
use crate::formula::Link;
use crate::orders::{Hop, LARGEST_FRAME, SMALLEST_FRAME};

pub const MOST_LINKS: u64 = 64;
pub const MOST_LEVELS: u64 = 8;
pub const MOST_THRESHOLD: u64 = 100_000;
pub const MOST_BUFFER: u64 = 16_777_215;
pub const MOST_FIXED_DELAY: u64 = 10_000;

/// One line of the table.
#[derive(Clone, Debug, Default, PartialEq)]
pub struct Queue {
    pub link: u64,
    pub from: u64,
    pub to: u64,
    /// Mbit/s, which is also bits per µs.
    pub speed: u64,
    pub level: u64,
    /// µs.
    pub threshold: u64,
    /// Bytes.
    pub buffer: u64,
    /// What the link's cable and switch take after the queue, µs.
    pub fixed_delay: u64,
    /// The longest frame that a laptop may send on the link, bytes; 0 where none does.
    pub best_effort_frame: u64,
}

impl Queue {
    /// What the formulas ask of its link.
    pub fn of_link(&self) -> Link {
        Link {
            speed: u128::from(self.speed),
            best_effort_frame: u128::from(self.best_effort_frame),
        }
    }

    /// The hop that names it.
    pub fn hop(&self) -> Hop {
        Hop {
            link: self.link,
            level: self.level,
        }
    }
}

/// Whose number a field of the table holds.
#[derive(Clone, Copy, Debug, PartialEq)]
pub enum Of {
    /// Link or level itself, which must come in turn.
    Turn,
    /// The link's, the same in all its lines.
    Link,
    Queue,
}

/// A field of a table line and the queue's number that it gives.
pub struct Entry {
    pub field: Field,
    pub of: Of,
    pub get: fn(&Queue) -> u64,
    set: fn(&mut Queue, u64),
}

macro_rules! entry {
    ($of:expr, $number:ident, $name:literal, $unit:literal, $columns:expr, $ranges:expr) => {
        Entry {
            field: Field::new($name, $unit, $columns, $ranges),
            of: $of,
            get: |queue| queue.$number,
            set: |queue, value| queue.$number = value,
        }
    };
}

/// A link without laptops, or the lengths that a frame may have.
const BEST_EFFORT_RANGES: &[(u64, u64)] = &[(0, 0), (SMALLEST_FRAME, LARGEST_FRAME)];

/// The fields of a table line, in their columns.
#[rustfmt::skip]
pub const ENTRIES: [Entry; 9] = [
    entry!(Of::Turn, link, "link", "", (1, 4), &[]),
    entry!(Of::Link, from, "from node", "", (5, 8), &[(1, 9_999)]),
    entry!(Of::Link, to, "to node", "", (9, 12), &[(1, 9_999)]),
    entry!(Of::Link, speed, "speed", "Mbit/s", (13, 18), &[(1, 10_000)]),
    entry!(Of::Turn, level, "level", "", (19, 20), &[]),
    entry!(Of::Queue, threshold, "threshold", "µs", (21, 27), &[(1, MOST_THRESHOLD)]),
    entry!(Of::Queue, buffer, "buffer", "bytes", (28, 36), &[(1, MOST_BUFFER)]),
    entry!(Of::Link, fixed_delay, "fixed delay", "µs", (37, 43), &[(0, MOST_FIXED_DELAY)]),
    entry!(Of::Link, best_effort_frame, "best-effort frame", "bytes", (44, 48), BEST_EFFORT_RANGES),
];

/// The lengths that a table line may have, shortest first; a field past its end is 0.
pub const LENGTHS: [usize; 3] = [36, 43, 48];

const LONGEST: usize = LENGTHS[LENGTHS.len() - 1];

/// A text of as many of the longest lines as there can be queues.
pub const MOST_TABLE_BYTES: usize = (MOST_LINKS * MOST_LEVELS) as usize * (LONGEST + 1);

/// A refused batch or table.
#[derive(Clone, Copy, Debug, PartialEq)]
pub struct Refusal {
    pub code: u64,
    pub line: u64,
}

pub fn read_table(text: &[u8]) -> Result<Vec<Queue>, Refusal> {
    if text.len() > MOST_TABLE_BYTES {
        return Err(Refusal {
            code: causes::TABLE_SIZE,
            line: 0,
        });
    }
    let mut queues: Vec<Queue> = Vec::new();
    for (index, line) in lines(text).iter().enumerate() {
        let (queue, faults) = examine(line, queues.last());
        match (queue, first_class(&faults)) {
            (Some(queue), None) => queues.push(queue),
            (_, class) => {
                return Err(Refusal {
                    code: class.map_or(causes::TABLE_COLUMNS, code_of),
                    line: index as u64 + 1,
                })
            }
        }
    }
    Ok(queues)
}

fn code_of(class: Class) -> u64 {
    match class {
        Class::Columns => causes::TABLE_COLUMNS,
        Class::Range => causes::TABLE_RANGE,
        Class::Turn => causes::TABLE_TURN,
        Class::Ends => causes::TABLE_ENDS,
    }
}

/// A line after the queue before it: its queue where the columns are right, and all that is wrong with it.
pub fn examine(line: &Line, before: Option<&Queue>) -> (Option<Queue>, Vec<Fault>) {
    if !line.ended {
        let fault = Fault {
            column: line.bytes.len() + 1,
            field: "",
            what: What::Unended,
        };
        return (None, vec![fault]);
    }
    let mut queue = Queue::default();
    let mut faults: Vec<Fault> = length_fault(line.bytes.len()).into_iter().collect();
    // A field past the shortest length counts where the line goes into it.
    let end = LENGTHS[0].max(line.bytes.len());
    for entry in ENTRIES.iter().filter(|entry| entry.field.first <= end) {
        match entry.field.read(line.bytes) {
            Ok(value) => (entry.set)(&mut queue, value),
            Err(fault) => faults.push(fault),
        }
    }
    if !faults.is_empty() {
        return (None, faults);
    }
    let faults = value_faults(&queue, before);
    (Some(queue), faults)
}

fn length_fault(columns: usize) -> Option<Fault> {
    if columns < LENGTHS[0] || LENGTHS.contains(&columns) {
        // A line that is too short lacks a field, which is said of that field.
        return None;
    }
    let what = if columns > LONGEST {
        What::Long {
            columns,
            most: LONGEST,
        }
    } else {
        What::Length { columns }
    };
    Some(Fault {
        column: columns.min(LONGEST) + 1,
        field: "",
        what,
    })
}

/// The first of 2 to 4 that a queue meets after the queue before it.
pub fn fault(queue: &Queue, before: Option<&Queue>) -> Option<u64> {
    first_class(&value_faults(queue, before)).map(code_of)
}

/// All of 2 to 4 that a queue meets after the queue before it.
fn value_faults(queue: &Queue, before: Option<&Queue>) -> Vec<Fault> {
    let values = ENTRIES.iter().map(|entry| (entry, (entry.get)(queue)));
    let mut faults: Vec<Fault> = values
        .filter_map(|(entry, value)| entry.field.fault_of(value))
        .collect();
    faults.extend(turn_fault(queue, before));
    faults.extend(end_faults(queue, before));
    faults
}

fn named(name: &str) -> &'static Field {
    let found = ENTRIES.iter().find(|entry| entry.field.name == name);
    &found.expect("a field of the table").field
}

fn turn_fault(queue: &Queue, before: Option<&Queue>) -> Option<Fault> {
    let in_turn = match before {
        None => queue.link == 1 && queue.level == 1,
        Some(last) => {
            let next_level = queue.link == last.link && queue.level == last.level + 1;
            let next_link = queue.link == last.link + 1 && queue.level == 1;
            next_level || next_link
        }
    };
    let (name, what) = if !in_turn {
        let what = What::Turn {
            value: (queue.link, queue.level),
            before: before.map(|last| (last.link, last.level)),
        };
        ("link", what)
    } else if queue.link > MOST_LINKS {
        let (value, most) = (queue.link, MOST_LINKS);
        ("link", What::Past { value, most })
    } else if queue.level > MOST_LEVELS {
        let (value, most) = (queue.level, MOST_LEVELS);
        ("level", What::Past { value, most })
    } else {
        return None;
    };
    Some(Fault {
        column: named(name).first,
        field: named(name).name,
        what,
    })
}

fn end_faults(queue: &Queue, before: Option<&Queue>) -> Vec<Fault> {
    let mut faults = Vec::new();
    if queue.from == queue.to {
        let field = named("to node");
        faults.push(Fault {
            column: field.first,
            field: field.name,
            what: What::SameEnds { node: queue.to },
        });
    }
    let Some(last) = before.filter(|last| last.link == queue.link) else {
        return faults;
    };
    for entry in ENTRIES.iter().filter(|entry| entry.of == Of::Link) {
        let (value, before) = ((entry.get)(queue), (entry.get)(last));
        if value != before {
            faults.push(Fault {
                column: entry.field.first,
                field: entry.field.name,
                what: What::Differs { value, before },
            });
        }
    }
    faults
}

/// A queue as its table line, in the shortest of the lengths that gives all its numbers.
pub fn write_queue(queue: &Queue) -> Vec<u8> {
    let zero_past = |length: usize| {
        let mut past = ENTRIES.iter().filter(|entry| entry.field.last > length);
        past.all(|entry| (entry.get)(queue) == 0)
    };
    let shortest = LENGTHS.into_iter().find(|&length| zero_past(length));
    write_queue_in(queue, shortest.unwrap_or(LONGEST))
}

/// A queue's fields in a table line of this length.
pub fn write_queue_in(queue: &Queue, length: usize) -> Vec<u8> {
    let mut line = Vec::new();
    for entry in ENTRIES.iter().filter(|entry| entry.field.last <= length) {
        entry.field.put(&mut line, (entry.get)(queue));
    }
    line.push(b'\n');
    line
}
