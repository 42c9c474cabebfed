//! The table of a run: what was seen of each queue beside its bound and limits.

use super::figures::{Seen, MOST_TOLD};
use super::frames::{BestEffort, Stay};
use super::hall::Hall;
use super::slots::{micros, Slots};
use crate::bounds::aligned;
use crate::numbers::{commas, thousandths};

/// Each with its unit.
pub const HEADINGS: [(&str, &str); 8] = [
    ("link", ""),
    ("level", ""),
    ("longest stay", "µs"),
    ("bound", "µs"),
    ("threshold", "µs"),
    ("greatest backlog", "bytes"),
    ("buffer", "bytes"),
    ("worst frame", ""),
];

/// `flow 7 frame 1, instants 1 to 247`.
pub fn worst_frame(hall: &Hall, stay: &Stay) -> String {
    format!(
        "flow {} frame {}, instants {} to {}",
        hall.flows[stay.frame.flow].number,
        commas(stay.frame.number),
        commas(stay.frame.came),
        commas(stay.gone)
    )
}

/// A row for each queue that carries a flow, in the columns of `HEADINGS`.
pub fn rows(hall: &Hall, seen: &[Seen]) -> Vec<[String; 8]> {
    let mut rows = Vec::new();
    for (index, queue) in hall.queues.iter().enumerate() {
        let Some(bounds) = hall.bounds[index] else {
            continue;
        };
        let worst = seen[index].longest;
        rows.push([
            queue.link.to_string(),
            queue.level.to_string(),
            worst.map_or("-".to_string(), |stay| commas(stay.length())),
            commas(bounds.delay),
            commas(queue.threshold),
            commas(seen[index].backlog),
            commas(queue.buffer),
            worst.map_or("no frame".to_string(), |stay| worst_frame(hall, &stay)),
        ]);
    }
    rows
}

/// The rows under their headings.
pub fn table(hall: &Hall, seen: &[Seen]) -> String {
    let heads = [
        HEADINGS.map(|(name, _)| name.to_string()),
        HEADINGS.map(|(_, unit)| unit.to_string()),
    ];
    let all: Vec<Vec<String>> = heads
        .into_iter()
        .chain(rows(hall, seen))
        .map(Vec::from)
        .collect();
    let table = aligned(&all);
    table
        .lines()
        .map(|line| format!("{}\n", line.trim_end()))
        .collect()
}

/// `behind a laptop's frame, 12.335 of 12.336 µs left`; nothing where none was under way.
pub fn behind(hall: &Hall, stay: &Stay) -> Option<String> {
    let speed = hall.queues[stay.queue].speed;
    let found = stay.frame.behind?;
    let (left, whole) = (micros(found.left, speed), micros(found.whole, speed));
    Some(format!(
        "behind a laptop's frame, {left} of {whole} µs left"
    ))
}

/// `ready at 50, sent from 61.935 to 74.271`.
pub fn sent(frame: &BestEffort, speed: u64) -> String {
    let ends = [frame.first, frame.end()];
    let rounded = ends.iter().any(|end| end % Slots::from(speed) > 0);
    format!(
        "ready at {}, sent from {}{}",
        thousandths(frame.laptop.ready.into()),
        ends.map(|end| micros(end, speed)).join(" to "),
        if rounded {
            ", rounded up to thousandths"
        } else {
            ""
        }
    )
}

/// When each laptop's frame was sent, where they are few.
pub fn laptops(hall: &Hall, frames: &[BestEffort]) -> String {
    let line = |frame: &BestEffort| {
        let link = frame.laptop.link as u64 + 1;
        let of_link = hall.queues.iter().find(|queue| queue.link == link);
        let words = of_link.map(|queue| sent(frame, queue.speed));
        format!("laptop on link {link}: {}\n", words.unwrap_or_default())
    };
    match frames.len() > MOST_TOLD {
        true => String::new(),
        false => frames.iter().map(line).collect(),
    }
}

/// For each queue the frame that had the most of a laptop's before it.
pub fn delayed(hall: &Hall, seen: &[Seen]) -> String {
    let worst = seen.iter().filter_map(|seen| seen.behind);
    let line = |stay: Stay| {
        let words = behind(hall, &stay).unwrap_or_default();
        format!(
            "{}: flow {} frame {} came at {} {words}\n",
            hall.place(stay.queue),
            hall.flows[stay.frame.flow].number,
            commas(stay.frame.number),
            commas(stay.frame.came)
        )
    };
    worst.map(line).collect()
}
