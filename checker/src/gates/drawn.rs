//! Openings, offers and damaged states, at the edges of what is allowed and of what is enough.

use halls::rng::Rng;
use plain::columns::Field;
use plain::gate::{full, Gate, BYTE, TURN};
use plain::orders::{BURST, FRAME, RATE, SMALLEST_FRAME};

/// In the order of an opening's numbers.
const FIELDS: [Field; 3] = [RATE, BURST, FRAME];
type Edge = fn(u64, u64) -> u64;
/// The ends of a range and what lies past them.
const EDGES: [(&str, Edge); 5] = [
    ("below its least", |least, _| least - 1),
    ("least", |least, _| least),
    ("most", |_, most| most),
    ("above its most", |_, most| most + 1),
    ("u64::MAX", |_, _| u64::MAX),
];
const WITHIN: &str = "within";
const AS_BURST: &str = "largest frame as burst";
const ABOVE_BURST: &str = "largest frame above burst";

/// Each field at each edge.
fn edge_kinds() -> impl Iterator<Item = String> {
    let kind = |field: &Field, edge: &str| format!("{} {edge}", field.name);
    FIELDS
        .into_iter()
        .flat_map(move |field| EDGES.map(|(edge, _)| kind(&field, edge)))
}

pub fn opening_kinds() -> Vec<String> {
    let others = [WITHIN, AS_BURST, ABOVE_BURST].map(str::to_string);
    edge_kinds().chain(others).collect()
}

/// One of the numbers put at an edge: which, and how.
fn to_edge(rng: &mut Rng, numbers: &mut [u64; 3]) -> String {
    let at = rng.index(FIELDS.len());
    let (edge, value) = rng.pick(&EDGES);
    let (least, most) = FIELDS[at].ranges[0];
    numbers[at] = value(least, most);
    format!("{} {edge}", FIELDS[at].name)
}

/// Rate, burst and largest frame, and of which kind they are.
pub fn opening(rng: &mut Rng) -> (String, [u64; 3]) {
    let frame = [84, 85, 1_542, rng.between(84, 1_542)];
    let frame = rng.pick(&frame);
    let bursts = [frame, frame + 1, 2 * frame, rng.between(frame, 10_000)];
    let rates = [1, 7, 8_000, 10_000_000, rng.between(1, 2_000_000)];
    let mut numbers = [rng.pick(&rates), rng.pick(&bursts), frame];
    let kind = match rng.between(0, 5) {
        0 | 1 => to_edge(rng, &mut numbers),
        2 => {
            numbers[1] = frame;
            AS_BURST.to_string()
        }
        3 if frame > SMALLEST_FRAME => {
            numbers[1] = frame - 1;
            ABOVE_BURST.to_string()
        }
        _ => WITHIN.to_string(),
    };
    (kind, numbers)
}

/// Tokens of a damaged state; a reading can't be out of range.
type Tokens = fn(&mut Rng, u64) -> u64;
const TOKENS: [(&str, Tokens); 5] = [
    ("tokens full", |_, full| full),
    ("tokens full + 1", |_, full| full + 1),
    ("tokens u64::MAX", |_, _| u64::MAX),
    ("tokens any", |rng, _| rng.draw()),
    ("tokens any up to full", |rng, full| rng.between(0, full)),
];
const ANYTHING: &str = "anything";

pub fn damage_kinds() -> Vec<String> {
    let tokens = TOKENS.map(|(kind, _)| kind.to_string());
    let others = [ABOVE_BURST, ANYTHING].map(str::to_string);
    edge_kinds().chain(tokens).chain(others).collect()
}

/// A gate as no offer would have left it, or could have with luck.
pub fn damage(rng: &mut Rng, gate: Gate) -> (String, Gate) {
    let mut state = gate;
    if rng.once_in(2) {
        state.reading = rng.draw() as u32;
    }
    let kind = match rng.between(0, 4) {
        0 | 1 => {
            let mut numbers = [gate.rate, gate.burst, gate.frame];
            let kind = to_edge(rng, &mut numbers);
            [state.rate, state.burst, state.frame] = numbers;
            kind
        }
        2 => {
            let (kind, tokens) = rng.pick(&TOKENS);
            state.tokens = tokens(rng, full(gate.burst) as u64);
            kind.to_string()
        }
        3 if gate.frame > SMALLEST_FRAME => {
            (state.burst, state.tokens) = (gate.frame - 1, 0);
            ABOVE_BURST.to_string()
        }
        _ => {
            let numbers = [(); 4].map(|()| rng.draw() >> rng.between(0, 63));
            [state.rate, state.burst, state.frame, state.tokens] = numbers;
            ANYTHING.to_string()
        }
    };
    (kind, state)
}

/// A clock that counts on where a sender's begins again at 0.
#[derive(Clone, Copy)]
pub struct Clock {
    pub time: u64,
}

impl Clock {
    pub fn drawn(rng: &mut Rng) -> Clock {
        let starts = [0, 1, TURN - 1, TURN - 1_000, rng.between(0, 3 * TURN)];
        Clock {
            time: rng.pick(&starts),
        }
    }

    pub fn reading(&self) -> u32 {
        (self.time % TURN) as u32
    }
}

/// A frame's length and the µs since the offer before, and of which kinds they are.
pub struct Offered {
    pub kinds: [&'static str; 2],
    pub length: u64,
    pub wait: u64,
}

/// Where a chain stands before its next offer, and when its last frame passed.
pub struct Situation {
    pub gate: Gate,
    pub clock: Clock,
    pub passed: Option<u64>,
}

type Length = fn(&mut Rng, u64) -> u64;
pub const LENGTHS: [(&str, Length); 7] = [
    ("84 bytes", |_, _| 84),
    ("the largest frame", |_, largest| largest),
    ("any frame", |rng, largest| rng.between(84, largest)),
    ("83 bytes", |_, _| 83),
    ("the largest frame + 1", |_, largest| largest + 1),
    ("u64::MAX bytes", |_, _| u64::MAX),
    ("no byte", |_, _| 0),
];
/// So many of them aren't refused.
const FRAMES: usize = 3;

type Wait = fn(&mut Rng, &Situation, u64) -> u64;
pub const WAITS: [(&str, Wait); 14] = [
    ("at once", |_, _, _| 0),
    ("1 µs later", |_, _, _| 1),
    ("its own time later", |_, now, length| now.own_time(length)),
    ("1 µs less", |_, now, length| {
        now.own_time(length).max(1) - 1
    }),
    (
        "its own time after the last that passed",
        |_, now, length| now.until_due(length),
    ),
    ("1 µs less after that", |_, now, length| {
        now.until_due(length).max(1) - 1
    }),
    ("when its tokens are there", |_, now, length| {
        now.until_there(length)
    }),
    ("1 µs before", |_, now, length| {
        now.until_there(length).max(1) - 1
    }),
    ("some time later", |rng, now, length| {
        rng.between(0, 2 * now.own_time(length))
    }),
    ("at the corner", |rng, now, _| {
        TURN - u64::from(now.clock.reading()) + rng.between(0, 2) - 1
    }),
    ("a turn later", |_, _, _| TURN),
    ("a turn less 1 µs", |_, _, _| TURN - 1),
    ("a turn and 1 µs", |_, _, _| TURN + 1),
    ("turns later", |rng, _, _| {
        rng.between(1, 3) * TURN + rng.between(1, 1_000)
    }),
];
/// So many of them are below a turn.
const SHORT: usize = 9;

impl Situation {
    /// Most frames aren't refused, and most waits are short.
    pub fn offer(&self, rng: &mut Rng) -> Offered {
        let lengths = if rng.once_in(6) {
            &LENGTHS[FRAMES..]
        } else {
            &LENGTHS[..FRAMES]
        };
        let waits = if rng.once_in(12) {
            &WAITS[SHORT..]
        } else {
            &WAITS[..SHORT]
        };
        let (length_kind, length) = rng.pick(lengths);
        let (wait_kind, wait) = rng.pick(waits);
        let length = length(rng, self.gate.frame);
        let frame = length.clamp(SMALLEST_FRAME, self.gate.frame);
        Offered {
            kinds: [length_kind, wait_kind],
            length,
            wait: wait(rng, self, frame),
        }
    }

    /// The µs in which so many tokens come, rounded up.
    fn time_for(&self, tokens: u128) -> u64 {
        tokens.div_ceil(u128::from(self.gate.rate)) as u64
    }

    fn own_time(&self, length: u64) -> u64 {
        self.time_for(BYTE * u128::from(length))
    }

    fn until_due(&self, length: u64) -> u64 {
        let passed = self.passed.unwrap_or(self.clock.time);
        (passed + self.own_time(length)).saturating_sub(self.clock.time)
    }

    fn until_there(&self, length: u64) -> u64 {
        let price = BYTE * u128::from(length);
        self.time_for(price.saturating_sub(u128::from(self.gate.tokens)))
    }
}
