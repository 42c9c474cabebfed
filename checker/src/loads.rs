//! The benchmark's loads: legal batches, repeated.

use halls::rng::Rng;
use halls::tables::{full_ring, table_text, MOST_BUFFER};
use plain::orders::{write_change, write_registration, write_release, Change, Flow, Hop, KIND};
use plain::programs::{write_call, MOST_CALL_BYTES, MOST_ORDER_BYTES, MOST_ORDER_LINES};

/// A batch and the part of its lines that is measured by itself: registrations and releases in turn, or changes.
pub struct Load {
    pub name: &'static str,
    pub table: Vec<u8>,
    pub lines: Vec<Vec<u8>>,
    pub steady: std::ops::Range<usize>,
}

impl Load {
    /// The order text of the first so many lines.
    pub fn text(&self, count: usize) -> Vec<u8> {
        self.lines[..count].concat()
    }
}

/// The six loads with this seed's numbers; their lines have the same lengths for every seed.
pub fn loads(seed: u64) -> Vec<Load> {
    vec![
        one_hop(seed),
        refused(seed),
        malformed(seed),
        twelve_hops(seed),
        changes(seed),
        last_slot(seed),
    ]
}

/// The kind of a line of a load, which names it.
pub fn kind_of(line: &[u8]) -> u64 {
    KIND.read(line).expect("a kind")
}

fn ring() -> Vec<u8> {
    table_text(&full_ring(10_000, 50_000, MOST_BUFFER))
}

/// Flows with numbers that haven't been given out yet.
struct Flows {
    rng: Rng,
    numbers: Vec<u64>,
}

impl Flows {
    fn new(seed: u64, index: u64) -> Flows {
        let mut rng = Rng::new(seed, index);
        let mut numbers: Vec<u64> = (1..=65_535).collect();
        rng.shuffle(&mut numbers);
        Flows { rng, numbers }
    }

    fn next(&mut self, hops: u64) -> Flow {
        let rng = &mut self.rng;
        let start = rng.between(0, 63);
        let hop = |i: u64, rng: &mut Rng| Hop {
            link: (start + i) % 64 + 1,
            level: rng.between(1, 8),
        };
        Flow {
            number: self.numbers.pop().expect("fewer flows than numbers"),
            rate: rng.between(1, 5_000),
            burst: rng.between(1_542, 9_999),
            frame: rng.between(84, 1_542),
            deadline: rng.between(600_000, 10_000_000),
            hops: (0..hops).map(|i| hop(i, rng)).collect(),
        }
    }
}

/// Fills to so many held flows, then releases one and registers one, as often as allowed.
fn alternating(
    flows: &mut Flows,
    hops: u64,
    held: usize,
    pairs: usize,
) -> (Vec<Vec<u8>>, Vec<u64>) {
    let mut lines = Vec::new();
    let mut numbers = Vec::new();
    for _ in 0..held {
        let flow = flows.next(hops);
        numbers.push(flow.number);
        lines.push(write_registration(&flow));
    }
    for _ in 0..pairs {
        let leaves = flows.rng.index(held);
        let flow = flows.next(hops);
        lines.push(write_release(numbers[leaves]));
        numbers[leaves] = flow.number;
        lines.push(write_registration(&flow));
    }
    (lines, numbers)
}

/// A call's header.
const HEADER: usize = 9;

/// Lists of direct calls, as long as `replay` reads them: one-hop and twelve-hop pairs, changes. Each
/// line is a call with its header.
pub fn call_lists(seed: u64) -> Vec<Load> {
    let pairs = [
        ("one-hop pairs", 1, 250, 5),
        ("twelve-hop pairs", 12, 84, 6),
    ]
    .map(|(name, hops, held, index)| {
        let registration = HEADER + 42 + 6 * hops as usize;
        let release = HEADER + 9;
        let pairs = (MOST_CALL_BYTES - held * registration) / (registration + release);
        let mut flows = Flows::new(seed, index);
        let (lines, _) = alternating(&mut flows, hops, held, pairs);
        calls_of(name, lines, held)
    });
    let registrations = CHANGED_HELD * (HEADER + CHANGED_LINE);
    let count = (MOST_CALL_BYTES - registrations) / (HEADER + CHANGE_LINE);
    let lines = changing(&mut Flows::new(seed, 8), count);
    let changes = calls_of("four-hop changes", lines, CHANGED_HELD);
    pairs.into_iter().chain([changes]).collect()
}

/// Lines as calls, of which those after the first so many are measured.
fn calls_of(name: &'static str, lines: Vec<Vec<u8>>, held: usize) -> Load {
    let steady = held..lines.len();
    let call = |line: Vec<u8>| write_call(kind_of(&line), &line);
    Load {
        name,
        table: ring(),
        lines: lines.into_iter().map(call).collect(),
        steady,
    }
}

/// (a) 2,000 lines, as many registrations as 60,000 bytes allow, 250 held in the steady state.
fn one_hop(seed: u64) -> Load {
    const HELD: usize = 250;
    let registrations = (MOST_ORDER_BYTES - 9 * MOST_ORDER_LINES) / (48 - 9);
    let pairs = registrations - HELD;
    let mut flows = Flows::new(seed, 1);
    let (mut lines, held) = alternating(&mut flows, 1, HELD, pairs);
    let steady = HELD..lines.len();
    for &number in held.iter().take(MOST_ORDER_LINES - lines.len()) {
        lines.push(write_release(number));
    }
    Load {
        name: "a one-hop pairs",
        table: ring(),
        lines,
        steady,
    }
}

/// (b) 256 registrations, then as many as fit that get 30.
fn refused(seed: u64) -> Load {
    let mut flows = Flows::new(seed, 2);
    let lines: Vec<Vec<u8>> = (0..MOST_ORDER_BYTES / 48)
        .map(|_| write_registration(&flows.next(1)))
        .collect();
    let steady = 256..lines.len();
    Load {
        name: "b full, then 30",
        table: ring(),
        lines,
        steady,
    }
}

/// (c) 2,000 malformed lines.
fn malformed(seed: u64) -> Load {
    let mut flows = Flows::new(seed, 3);
    let lines: Vec<Vec<u8>> = (0..MOST_ORDER_LINES)
        .map(|index| {
            let flow = flows.next(1);
            let mut line = if index % 2 == 0 {
                write_release(flow.number)
            } else {
                let mut cut = write_registration(&flow);
                cut.truncate(40);
                cut.push(b'\n');
                cut
            };
            if line.len() == 9 {
                let at = flows.rng.index(8);
                line[at] = b'x';
            }
            line
        })
        .collect();
    let steady = 0..lines.len();
    Load {
        name: "c malformed",
        table: ring(),
        lines,
        steady,
    }
}

/// (d) Twelve-hop registrations and releases, 84 held.
fn twelve_hops(seed: u64) -> Load {
    const HELD: usize = 84;
    const LINE: usize = 42 + 6 * 12;
    let pairs = (MOST_ORDER_BYTES - HELD * LINE) / (LINE + 9);
    let mut flows = Flows::new(seed, 4);
    let (lines, _) = alternating(&mut flows, 12, HELD, pairs);
    let steady = HELD..lines.len();
    Load {
        name: "d twelve-hop pairs",
        table: ring(),
        lines,
        steady,
    }
}

/// Flows of four hops that are held while they are changed, the bytes of their lines and of a change.
const CHANGED_HELD: usize = 250;
const CHANGED_HOPS: u64 = 4;
const CHANGED_LINE: usize = 42 + 6 * CHANGED_HOPS as usize;
const CHANGE_LINE: usize = 26;
/// Bursts of such a rate, grown along three hops, are above every buffer.
const TOO_FAST: u64 = 1_000_000;
/// One change in so many is refused, at the last link.
pub const REFUSED_ONE_IN: usize = 4;

/// Fills the hall, then changes one held flow after the other.
fn changing(flows: &mut Flows, count: usize) -> Vec<Vec<u8>> {
    let held: Vec<Flow> = (0..CHANGED_HELD)
        .map(|_| flows.next(CHANGED_HOPS))
        .collect();
    let mut lines: Vec<Vec<u8>> = held.iter().map(write_registration).collect();
    for index in 1..=count {
        let rng = &mut flows.rng;
        let change = Change {
            number: held[rng.index(CHANGED_HELD)].number,
            rate: match index % REFUSED_ONE_IN {
                0 => TOO_FAST,
                _ => rng.between(1, 5_000),
            },
            burst: rng.between(1_542, 9_999),
        };
        lines.push(write_change(&change));
    }
    lines
}

/// (e) Changes of four-hop flows, 250 held.
fn changes(seed: u64) -> Load {
    let count = (MOST_ORDER_BYTES - CHANGED_HELD * CHANGED_LINE) / CHANGE_LINE;
    let lines = changing(&mut Flows::new(seed, 7), count);
    let steady = CHANGED_HELD..lines.len();
    Load {
        name: "e four-hop changes",
        table: ring(),
        lines,
        steady,
    }
}

/// (f) One-hop flows that get slot 256, the only one free, and leave it at once; 255 held.
fn last_slot(seed: u64) -> Load {
    const HELD: usize = 255;
    const LINE: usize = 42 + 6;
    let pairs = (MOST_ORDER_BYTES - HELD * LINE) / (LINE + 9);
    let mut flows = Flows::new(seed, 9);
    let mut lines = Vec::new();
    for _ in 0..HELD {
        lines.push(write_registration(&flows.next(1)));
    }
    for _ in 0..pairs {
        let flow = flows.next(1);
        lines.push(write_registration(&flow));
        lines.push(write_release(flow.number));
    }
    let steady = HELD..lines.len();
    Load {
        name: "f one slot free",
        table: ring(),
        lines,
        steady,
    }
}
