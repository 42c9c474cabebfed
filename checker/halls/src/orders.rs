//! Order lines over a table: flows along real paths, single faults of every kind, releases, changes.

use crate::rng::Rng;
use crate::tables::least_deadline;
use plain::columns::put;
use plain::orders::{write_change, write_registration, write_release, Change, Flow, Hop};
use plain::table::Queue;

/// A random walk over the links of a table, no link twice, at random levels.
pub fn walk(rng: &mut Rng, queues: &[Queue], most: usize) -> Vec<Hop> {
    let mut hops: Vec<Hop> = Vec::new();
    let mut node = None;
    while hops.len() < most {
        let open: Vec<&Queue> = queues
            .iter()
            .filter(|queue| node.is_none_or(|at| queue.from == at))
            .filter(|queue| hops.iter().all(|hop| hop.link != queue.link))
            .collect();
        if open.is_empty() {
            break;
        }
        let next = open[rng.index(open.len())];
        hops.push(Hop {
            link: next.link,
            level: next.level,
        });
        node = Some(next.to);
    }
    hops
}

/// How demanding the flows of a text are.
#[derive(Clone, Copy)]
pub struct Demand {
    pub rates: &'static [u64],
    pub bursts: &'static [u64],
    pub most_hops: usize,
    /// Flow numbers go from 1 to this.
    pub numbers: u64,
}

pub const SMALL: Demand = Demand {
    rates: &[1, 2, 5, 10],
    bursts: &[84, 85, 100, 200],
    most_hops: 4,
    numbers: 65_535,
};
pub const LIKE_THE_SUMS: Demand = Demand {
    rates: &[1_000],
    bursts: &[1_542],
    most_hops: 3,
    numbers: 40,
};
pub const WIDE: Demand = Demand {
    rates: &[
        1, 10, 100, 1_000, 5_000, 9_000, 50_000, 100_000, 1_000_000, 9_999_999, 10_000_000,
    ],
    bursts: &[
        84, 200, 1_541, 1_542, 3_084, 5_000, 20_000, 100_000, 1_000_000,
    ],
    most_hops: 12,
    numbers: 300,
};

/// A flow that breaks no rule for order lines, if the table has a queue.
pub fn flow(rng: &mut Rng, queues: &[Queue], demand: Demand) -> Flow {
    let most = rng.between(1, demand.most_hops as u64) as usize;
    let mut hops = walk(rng, queues, most);
    if hops.is_empty() {
        hops.push(Hop { link: 1, level: 1 });
    }
    let burst = rng.pick(demand.bursts);
    let frames = [84, 85, 200, 512, 1_000, 1_541, 1_542];
    let largest = rng.pick(&frames).min(burst);
    Flow {
        number: rng.between(1, demand.numbers),
        rate: rng.pick(demand.rates),
        burst,
        frame: if rng.once_in(3) {
            largest
        } else {
            burst.min(1_542)
        },
        deadline: deadline(rng, least_deadline(queues, &hops)),
        hops,
    }
}

/// Mostly the greatest; else any, the least that passes, or one below it.
fn deadline(rng: &mut Rng, least: u64) -> u64 {
    match rng.between(0, 14) {
        0 => rng.between(1, 300_000),
        1 => least.saturating_sub(rng.between(0, 1)).max(1),
        _ => 10_000_000,
    }
}

/// A registration's bytes with any hop count, whatever hops follow.
fn raw_registration(flow: &Flow, kind: u64, count: u64) -> Vec<u8> {
    let mut line = Vec::new();
    put(&mut line, kind, 2);
    put(&mut line, flow.number, 6);
    put(&mut line, flow.rate, 9);
    put(&mut line, flow.burst, 8);
    put(&mut line, flow.frame, 5);
    put(&mut line, flow.deadline, 8);
    put(&mut line, count, 3);
    for hop in &flow.hops {
        put(&mut line, hop.link, 4);
        put(&mut line, hop.level, 2);
    }
    line.push(b'\n');
    line
}

/// One value set to or past a limit, or one hop set wrong.
fn one_odd_value(rng: &mut Rng, flow: &mut Flow) {
    let at = rng.index(flow.hops.len());
    match rng.between(0, 9) {
        0 => flow.number = rng.pick(&[0, 1, 65_535, 65_536, 999_999]),
        1 => flow.rate = rng.pick(&[0, 1, 10_000_000, 10_000_001, 999_999_999]),
        2 => flow.burst = rng.pick(&[0, 83, 84, 1_000_000, 1_000_001]),
        3 => flow.frame = rng.pick(&[0, 83, 84, 1_542, 1_543, 99_999]),
        4 => flow.deadline = rng.pick(&[0, 1, 10_000_000, 10_000_001]),
        5 => flow.hops[at].link = rng.pick(&[0, 1, 2, 64, 65, 9_999]),
        6 => flow.hops[at].level = rng.pick(&[0, 1, 8, 9, 99]),
        7 => flow.hops[at] = flow.hops[0],
        8 => rng.shuffle(&mut flow.hops),
        _ => flow.frame = (flow.burst + 1).min(1_542),
    }
}

/// A line with a fault in its columns or its hop count.
fn odd_line(rng: &mut Rng, flow: &Flow) -> Vec<u8> {
    let hops = flow.hops.len() as u64;
    match rng.between(0, 6) {
        0 => raw_registration(flow, 1, rng.pick(&[0, 13, 999])),
        1 => raw_registration(flow, 1, hops + 1),
        2 => raw_registration(flow, rng.pick(&[0, 3, 4, 99]), hops),
        3 => b"\n".to_vec(),
        4 => raw_registration(flow, 2, hops),
        5 => {
            let mut line = write_release(flow.number);
            line.insert(8, rng.pick(b" 0x"));
            line
        }
        _ => {
            let mut line = write_registration(flow);
            one_byte(rng, &mut line);
            line
        }
    }
}

/// A change of a flow: of its rate, its burst, both or neither, to one less or more or to any that flows have, among these
/// bursts below the frame and such as no queue has room for.
pub fn change(rng: &mut Rng, flow: &Flow, demand: Demand) -> Change {
    let (of_rate, of_burst) =
        rng.pick(&[(true, true), (true, false), (false, true), (false, false)]);
    let mut other = |known: u64, any: &[u64]| match rng.between(0, 4) {
        0 => known + 1,
        1 => known.saturating_sub(1),
        _ => rng.pick(any),
    };
    let (rate, burst) = (
        other(flow.rate, demand.rates),
        other(flow.burst, demand.bursts),
    );
    Change {
        number: flow.number,
        rate: if of_rate {
            rate.clamp(1, 10_000_000)
        } else {
            flow.rate
        },
        burst: match (of_burst, rng.once_in(8)) {
            (true, true) => flow.frame.saturating_sub(rng.between(0, 1)).max(84),
            (true, false) => burst.clamp(84, 1_000_000),
            (false, _) => flow.burst,
        },
    }
}

/// A change with a fault in its columns or a number past its range.
fn odd_change(rng: &mut Rng, mut change: Change) -> Vec<u8> {
    match rng.between(0, 5) {
        0 => change.number = rng.pick(&[0, 65_536]),
        1 => change.rate = rng.pick(&[0, 10_000_001]),
        2 => change.burst = rng.pick(&[83, 1_000_001]),
        _ => {}
    }
    let mut line = write_change(&change);
    match rng.between(0, 5) {
        0 => {
            line.remove(rng.index(line.len() - 1));
        }
        1 => line.insert(line.len() - 1, rng.pick(b" 0x")),
        2 => one_byte(rng, &mut line),
        _ => {}
    }
    line
}

/// One byte changed, put in or taken out.
pub fn one_byte(rng: &mut Rng, text: &mut Vec<u8>) {
    if text.is_empty() {
        return;
    }
    let at = rng.index(text.len());
    let byte = match rng.between(0, 3) {
        0 => rng.pick(b" 0123456789"),
        1 => b'\n',
        2 => rng.pick(b"-+.,x/:\t\r\0\xff"),
        _ => rng.draw() as u8,
    };
    match rng.between(0, 5) {
        0 => text.insert(at, byte),
        1 => {
            text.remove(at);
        }
        _ => text[at] = byte,
    }
}

/// How often the lines of a text are something else than a registration without fault, in tenths.
#[derive(Clone, Copy)]
pub struct Mix {
    pub releases: u64,
    pub changes: u64,
    pub odd: u64,
}

/// So many order lines over a table, one by one.
pub fn order_lines(
    rng: &mut Rng,
    queues: &[Queue],
    demand: Demand,
    mix: Mix,
    count: usize,
) -> Vec<Vec<u8>> {
    let mut given: Vec<Flow> = Vec::new();
    let mut lines = Vec::new();
    for _ in 0..count {
        let dice = rng.between(1, 10);
        if dice <= mix.releases {
            let number = if given.is_empty() || rng.once_in(12) {
                rng.pick(&[0, 1, 65_535, 65_536, 70])
            } else {
                let index = rng.index(given.len());
                given.swap_remove(index).number
            };
            lines.push(write_release(number));
            continue;
        }
        let mut new = flow(rng, queues, demand);
        if dice <= mix.releases + mix.changes {
            let known = if given.is_empty() || rng.once_in(12) {
                &new
            } else {
                &given[rng.index(given.len())]
            };
            let wanted = change(rng, known, demand);
            lines.push(match rng.once_in(4) {
                true => odd_change(rng, wanted),
                false => write_change(&wanted),
            });
            continue;
        }
        if dice <= mix.releases + mix.changes + mix.odd {
            if rng.once_in(2) {
                lines.push(odd_line(rng, &new));
                continue;
            }
            for _ in 0..rng.between(1, 3) {
                one_odd_value(rng, &mut new);
            }
        }
        lines.push(write_registration(&new));
        given.push(new);
    }
    lines
}
