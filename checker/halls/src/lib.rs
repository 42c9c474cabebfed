//! Inputs of the comparison runs, by seed: whole batches with every code in reach; sources that keep to their bucket.

pub mod faults;
mod full;
pub mod orders;
pub mod rng;
pub mod sources;
pub mod tables;

use full::{full_hops, full_slots};
use orders::{change, flow, one_byte, order_lines, Demand, Mix, LIKE_THE_SUMS, SMALL, WIDE};
use plain::orders::{write_change, write_registration, Flow, LARGEST_FRAME, SMALLEST_FRAME};
use plain::programs::ANSWER_BYTES;
use plain::registry::Registry;
use plain::table::{write_queue, Queue, LENGTHS, MOST_TABLE_BYTES};
use rng::Rng;
use tables::{drawn_text, full_ring, link_fields, loose, random_limits, table_text, Shape};

/// A batch's three areas; of the answer area only the length counts.
pub struct Input {
    pub table: Vec<u8>,
    pub orders: Vec<u8>,
    pub area: usize,
    /// How the texts were made, how long the table's lines are, and what was done to them.
    pub kinds: [&'static str; 3],
}

/// The kinds that every run must have met.
pub const KINDS: [&str; 19] = [
    "full slots",
    "full hops",
    "at the limits",
    "tight",
    "like the sums",
    "mixed",
    NO_LINES,
    LINES_TO[0],
    LINES_TO[1],
    LINES_TO[2],
    SEVERAL_LENGTHS,
    "as made",
    "odd length",
    "delay above its range",
    "delays differ",
    "best-effort frame out of range",
    "best-effort frames differ",
    "one byte",
    "cut",
];

/// How long the lines of a table are, by their last field where all are alike.
const LINES_TO: [&str; LENGTHS.len()] = [
    "lines to the buffer",
    "lines to the delay",
    "lines to the best-effort frame",
];
const SEVERAL_LENGTHS: &str = "several lengths";
const NO_LINES: &str = "no line of a right length";

/// Among them some at which the smallest frame's 672 bits take whole µs, or a little more.
const SPEEDS: [u64; 9] = [1, 7, 10, 97, 100, 671, 672, 1_000, 10_000];

/// One batch. A long run has more lines in each text.
pub fn input(rng: &mut Rng, long: bool) -> Input {
    let most = if long { 600 } else { 60 };
    let (made, (mut queues, lines)) = match rng.between(0, 23) {
        0 => ("full slots", full_slots(rng)),
        1 => ("full hops", full_hops(rng)),
        2 | 3 => return at_the_limits(rng),
        4..=7 => ("tight", tight(rng)),
        8..=10 => {
            let queues = sums_network(rng);
            let lines = mixed_lines(rng, &queues, LIKE_THE_SUMS, most);
            ("like the sums", (queues, lines))
        }
        _ => {
            let queues = network(rng);
            let demand = if rng.once_in(3) { SMALL } else { WIDE };
            let lines = mixed_lines(rng, &queues, demand, most);
            ("mixed", (queues, lines))
        }
    };
    let mut orders = lines.concat();
    let spoilt = spoil(rng, &mut queues);
    let mut table = drawn_text(rng, &queues);
    let lengths = line_lengths(&table);
    let done = spoilt.unwrap_or_else(|| damage(rng, &mut table, &mut orders));
    let area = area(rng, &orders);
    Input {
        table,
        orders,
        area,
        kinds: [made, lengths, done],
    }
}

/// Now and then some faults in the table's numbers, or in a link's further numbers alone, which is told.
fn spoil(rng: &mut Rng, queues: &mut Vec<Queue>) -> Option<&'static str> {
    match rng.between(0, 23) {
        0..=3 => faults::line_faults(rng, queues),
        4..=6 => return Some(faults::link_fault(rng, queues)),
        _ => {}
    }
    None
}

fn line_lengths(table: &[u8]) -> &'static str {
    let lines = plain::columns::lines(table);
    let of = |length: usize| lines.iter().any(|line| line.bytes.len() == length);
    let mut met = (0..LENGTHS.len()).filter(|&index| of(LENGTHS[index]));
    match (met.next(), met.next()) {
        (None, _) => NO_LINES,
        (Some(only), None) => LINES_TO[only],
        _ => SEVERAL_LENGTHS,
    }
}

fn network(rng: &mut Rng) -> Vec<Queue> {
    let shape = rng.pick(&[Shape::Mesh, Shape::Mesh, Shape::Chain]);
    let links = rng.pick(&[1, 2, 3, 6, 13, 20, 64]);
    let most_levels = rng.pick(&[1, 2, 3, 8]);
    let speeds: &[u64] = if rng.once_in(2) { &SPEEDS } else { &[10_000] };
    let mut queues = loose(rng, shape, links, most_levels, speeds);
    if rng.once_in(2) {
        random_limits(rng, &mut queues);
    }
    link_fields(rng, &mut queues);
    queues
}

/// A few links at 100 Mbit/s with limits near document 01's sums.
fn sums_network(rng: &mut Rng) -> Vec<Queue> {
    let mut queues = loose(rng, Shape::Chain, 3, 3, &[100]);
    for queue in &mut queues {
        queue.threshold = rng.pick(&[
            246, 247, 370, 371, 374, 375, 376, 495, 498, 499, 1_000, 100_000,
        ]);
        queue.buffer = rng.pick(&[
            1_557, 1_558, 1_573, 1_574, 1_589, 1_604, 1_605, 1_649, 2_000, 3_200, 100_000,
        ]);
    }
    link_fields(rng, &mut queues);
    queues
}

fn mixed_lines(rng: &mut Rng, queues: &[Queue], demand: Demand, most: u64) -> Vec<Vec<u8>> {
    let mix = Mix {
        releases: rng.between(0, 3),
        changes: rng.between(0, 3),
        odd: rng.between(0, 3),
    };
    let count = rng.between(0, most) as usize;
    order_lines(rng, queues, demand, mix, count)
}

/// Limits that are the bounds of a set of flows or one below, and the same flows again; then changes of them.
fn tight(rng: &mut Rng) -> (Vec<Queue>, Vec<Vec<u8>>) {
    let links = rng.between(1, 6);
    let mut queues = loose(rng, Shape::Mesh, links, 4, &[10, 100, 1_000]);
    link_fields(rng, &mut queues);
    let mut registry = Registry::over(queues.clone());
    let count = rng.between(1, 25);
    for _ in 0..count {
        let line = write_registration(&flow(
            rng,
            &queues,
            Demand {
                numbers: 65_535,
                ..WIDE
            },
        ));
        registry.register(&line);
    }
    let mut flows: Vec<Flow> = registry.held().into_iter().cloned().collect();
    tables::tighten(&mut queues, &flows.iter().collect::<Vec<_>>());
    tables::tighten_deadlines(&queues, &mut flows);
    if rng.once_in(2) {
        one_short(rng, &mut queues);
    }
    if let Some(last) = flows.last_mut() {
        last.deadline = (last.deadline - rng.between(0, 1)).max(1);
        last.rate += rng.between(0, 1);
        last.burst += rng.between(0, 1);
    }
    rng.shuffle(&mut flows);
    let mut lines: Vec<Vec<u8>> = flows.iter().map(write_registration).collect();
    let changes = if flows.is_empty() { 0 } else { rng.index(20) };
    for _ in 0..changes {
        let held = rng.pick(&flows);
        lines.push(write_change(&change(rng, &held, WIDE)));
    }
    (queues, lines)
}

/// One limit lower by one, or one link's fixed delay or best-effort frame higher by one.
fn one_short(rng: &mut Rng, queues: &mut [Queue]) {
    let at = rng.index(queues.len());
    let Queue { link, .. } = queues[at];
    let of_link = |queue: &&mut Queue| queue.link == link;
    match rng.between(0, 3) {
        0 => queues[at].threshold = (queues[at].threshold - 1).max(1),
        1 => queues[at].buffer = (queues[at].buffer - 1).max(1),
        2 => {
            for queue in queues.iter_mut().filter(of_link) {
                queue.fixed_delay = (queue.fixed_delay + 1).min(tables::MOST_FIXED_DELAY);
            }
        }
        _ => {
            for queue in queues.iter_mut().filter(of_link) {
                let longer = queue.best_effort_frame + 1;
                queue.best_effort_frame = longer.clamp(SMALLEST_FRAME, LARGEST_FRAME);
            }
        }
    }
}

/// Texts of just the longest length or one more, tables past 64 links or 8 levels.
fn at_the_limits(rng: &mut Rng) -> Input {
    let mut table = drawn_text(rng, &full_ring(100, 1_000, 10_000));
    let mut orders = Vec::new();
    match rng.between(0, 6) {
        0 => orders = vec![rng.pick(b"x1 "); 60_000 + rng.index(2)],
        1 => orders = vec![b'\n'; 2_000 + rng.index(2)],
        2 => {
            orders = vec![b'\n'; 1_999];
            orders.extend_from_slice(rng.pick(&[&b" 1"[..], b" 2     1\n", b"\n\n", b"\n "]));
        }
        3 => {
            let past = write_queue(&faults::past_the_last());
            table.extend_from_slice(rng.pick(&[&b""[..], b" ", b"\n", b"  65", &past]));
        }
        4 => table = vec![b' '; MOST_TABLE_BYTES + rng.index(2)],
        5 => table = table_text(&faults::too_many(rng)),
        _ => table.clear(),
    }
    let line_lengths = line_lengths(&table);
    let area = area(rng, &orders);
    Input {
        table,
        orders,
        area,
        kinds: ["at the limits", line_lengths, "as made"],
    }
}

/// Leaves most texts alone; else one byte, or all bytes from some place on.
fn damage(rng: &mut Rng, table: &mut Vec<u8>, orders: &mut Vec<u8>) -> &'static str {
    match rng.between(0, 19) {
        0 => one_byte(rng, table),
        1 | 2 => one_byte(rng, orders),
        3 => {
            table.truncate(rng.index(table.len() + 1));
            return "cut";
        }
        4 => {
            orders.truncate(rng.index(orders.len() + 1));
            return "cut";
        }
        5 => {
            faults::odd_length(rng, table);
            return "odd length";
        }
        _ => return "as made",
    }
    "one byte"
}

fn area(rng: &mut Rng, orders: &[u8]) -> usize {
    let ended = orders.iter().filter(|&&byte| byte == b'\n').count();
    let lines = ended + usize::from(orders.last().is_some_and(|&byte| byte != b'\n'));
    let needed = ANSWER_BYTES * lines;
    match rng.between(0, 19) {
        0 => needed.saturating_sub(1),
        1 => rng.index(needed + 1),
        2 => 0,
        3..=6 => needed + rng.index(50),
        _ => needed,
    }
}
