//! What the lists of a run met: each kind must have occurred.

use plain::causes::DONE;
use plain::orders::{CHANGE, MOST_HOPS, REGISTER};
use plain::programs::{Made, MOST_CALL_BYTES};
use plain::registry::{Registry, HOP_POOL, SLOTS};
use std::collections::BTreeMap;

/// A list that was made, and the registry after it.
pub struct List<'a> {
    pub registry: &'a Registry,
    pub refused: bool,
    pub made: &'a Made,
    pub bytes: usize,
}

/// A held flow: its slot, its hops, with which call it was registered, and whether it was changed since.
#[derive(Clone, Copy, Default)]
struct Held {
    slot: usize,
    hops: usize,
    since: usize,
    changed: bool,
}

impl List<'_> {
    /// The held flows, lowest slot first.
    fn held(&self) -> Vec<Held> {
        let mut slots = [Held::default(); SLOTS];
        for (index, (kind, answer)) in self.made.answers.iter().enumerate() {
            if answer.code != DONE {
                continue;
            }
            let slot = &mut slots[answer.slot as usize - 1];
            match *kind {
                REGISTER => (slot.since, slot.changed) = (index, false),
                CHANGE => slot.changed = true,
                _ => {}
            }
        }
        let mut held = Vec::new();
        for (slot, flow) in self.registry.slots.iter().enumerate() {
            if let Some(flow) = flow {
                held.push(Held {
                    slot,
                    hops: flow.hops.len(),
                    ..slots[slot]
                });
            }
        }
        held
    }

    /// The kinds that it is of.
    fn kinds(&self) -> Vec<&'static str> {
        let held = self.held();
        let ended = self.made.end.is_some();
        let entries: usize = held.iter().map(|flow| flow.hops).sum();
        let followed = |test: fn(&[Held]) -> bool| held.windows(2).any(test);
        let of = [
            followed(|pair| pair[1].slot > pair[0].slot + 1),
            held.iter().any(|flow| flow.changed),
            followed(|pair| pair[1].since < pair[0].since),
            held.iter().any(|flow| flow.hops as u64 == MOST_HOPS),
            held.is_empty() && !self.refused,
            held.len() == SLOTS,
            entries == HOP_POOL,
            self.refused,
            ended && !held.is_empty(),
            self.refused && ended,
            self.bytes > MOST_CALL_BYTES,
        ];
        let kinds = KINDS.iter().zip(of);
        kinds.filter(|(_, of)| *of).map(|(kind, _)| *kind).collect()
    }
}

/// In the order of the tests for them.
const KINDS: [&str; 11] = [
    "a gap",
    "a changed flow",
    "a later flow at a lower slot",
    "12 hops",
    "no flow",
    "256 flows",
    "1,024 hop entries",
    "a refused table",
    "an ended list, flows held",
    "a refused table and an ended list",
    "a list above 200,000 bytes",
];

/// How often each kind of list occurred.
#[derive(Default)]
pub struct Met {
    lists: u64,
    lines: u64,
    kinds: BTreeMap<&'static str, u64>,
}

impl Met {
    pub fn add(&mut self, list: &List) {
        self.lists += 1;
        self.lines += list.registry.held().len() as u64;
        for kind in list.kinds() {
            *self.kinds.entry(kind).or_default() += 1;
        }
    }

    pub fn missing(&self) -> Vec<&'static str> {
        let never = |kind: &&str| !self.kinds.contains_key(kind);
        KINDS.into_iter().filter(never).collect()
    }

    pub fn print(&self) {
        println!("handovers: {}, lines: {}", self.lists, self.lines);
        let kinds = self.kinds.iter();
        let shown: Vec<String> = kinds.map(|(kind, n)| format!("{kind}: {n}")).collect();
        println!("{}", shown.join(", "));
    }
}
