//! What a line of a file says, in words: each field with its name and unit, as the plain version lists them.

use crate::numbers::commas;
use plain::columns::Field;
use plain::formula::Sums;
use plain::orders::{Flow, Hop, KIND, KINDS};
use plain::table::{Of, Queue, ENTRIES};

/// A field's number: `rate 20,000 kbit/s`. One without a unit is a name, as it stands in the files: `flow number 65535`.
pub fn named(field: &Field, value: u64) -> String {
    match field.unit {
        "" => format!("{} {value}", field.name),
        unit => format!("{} {} {unit}", field.name, commas(value)),
    }
}

/// `link 3 level 2`.
pub fn queue_name(hop: Hop) -> String {
    format!("link {} level {}", commas(hop.link), hop.level)
}

/// A link with its own numbers: `link 3: from node 3, to node 4, speed 100 Mbit/s`. One that is 0, as a cable's delay, isn't
/// said.
pub fn link_title(queue: &Queue) -> String {
    let own = ENTRIES.iter().filter(|entry| entry.of == Of::Link);
    let numbers: Vec<String> = own
        .map(|entry| (&entry.field, (entry.get)(queue)))
        .filter(|(_, value)| *value > 0)
        .map(|(field, value)| named(field, value))
        .collect();
    format!("link {}: {}", queue.link, numbers.join(", "))
}

/// Which of the two frames that can be under way blocks a level, in words and in one word; nothing on a link that laptops
/// don't share.
pub fn blocking_by(sums: &Sums) -> Option<(&'static str, &'static str)> {
    use std::cmp::Ordering;
    (sums.best_effort_frame > 0).then(|| match sums.best_effort_frame.cmp(&sums.below) {
        Ordering::Greater => ("the best-effort frame", "best-effort"),
        Ordering::Less => ("the frame below", "below"),
        Ordering::Equal => ("both alike", "both"),
    })
}

/// An order line that was read: `register: flow number 202, rate 20,000 kbit/s, .., over link 2 level 2, link 3 level 2`.
pub fn order_title(line: &[u8], flow: Option<&Flow>) -> String {
    let number = KIND.read(line).ok();
    let Some(kind) = KINDS.iter().find(|kind| Some(kind.number) == number) else {
        return String::new();
    };
    let fields = kind.fields.iter();
    let numbers: Vec<String> = fields
        .filter_map(|field| Some(named(field, field.read(line).ok()?)))
        .collect();
    let title = format!("{}: {}", kind.word, numbers.join(", "));
    match flow {
        None => title,
        Some(flow) => format!("{title}, over {}", path(&flow.hops)),
    }
}

/// `link 2 level 2, link 3 level 2`.
pub fn path(hops: &[Hop]) -> String {
    let names: Vec<String> = hops.iter().map(|&hop| queue_name(hop)).collect();
    names.join(", ")
}
