//! What the chains of a run met: each of it must have occurred.

use super::drawn::{damage_kinds, opening_kinds, Offered, LENGTHS, WAITS};
use super::promises::Seen;
use plain::gate::{DROPPED, FRAME_REFUSED, GATE_REFUSED, PASSED};
use std::collections::BTreeMap;

const CODES: [u32; 4] = [PASSED, DROPPED, FRAME_REFUSED, GATE_REFUSED];
/// In the order of what an offer was seen to be.
const SEEN: [&str; 3] = [
    "readings past the corner",
    "turns unseen",
    "frames that had to pass after drops",
];

/// How often each occurred, openings, offers of chains and damaged states apart.
#[derive(Default)]
pub struct Met {
    openings: BTreeMap<String, u64>,
    offers: BTreeMap<String, u64>,
    damaged: BTreeMap<String, u64>,
}

fn add(counts: &mut BTreeMap<String, u64>, what: impl ToString) {
    *counts.entry(what.to_string()).or_default() += 1;
}

fn answered(code: u32) -> String {
    format!("code {code}")
}

impl Met {
    pub fn opening(&mut self, kind: &str, code: u32) {
        add(&mut self.openings, kind);
        add(&mut self.openings, answered(code));
    }

    pub fn damaged(&mut self, kind: &str, code: u32) {
        add(&mut self.damaged, kind);
        add(&mut self.damaged, answered(code));
    }

    pub fn offer(&mut self, offered: &Offered, code: u32, seen: &Seen) {
        add(&mut self.offers, answered(code));
        for kind in offered.kinds {
            add(&mut self.offers, kind);
        }
        let seen = [seen.corner, seen.unseen_turn, seen.due_after_drops];
        for (what, _) in SEEN.iter().zip(seen).filter(|(_, seen)| *seen) {
            add(&mut self.offers, what);
        }
    }

    /// Each count with its title and all that belongs in it.
    fn parts(&self) -> [(&str, &BTreeMap<String, u64>, Vec<String>); 3] {
        let mut openings = opening_kinds();
        openings.extend([PASSED, GATE_REFUSED].map(answered));
        let mut damaged = damage_kinds();
        damaged.extend(CODES.map(answered));
        let mut offers: Vec<String> = SEEN.map(str::to_string).into();
        offers.extend([PASSED, DROPPED, FRAME_REFUSED].map(answered));
        offers.extend(LENGTHS.map(|(kind, _)| kind.to_string()));
        offers.extend(WAITS.map(|(kind, _)| kind.to_string()));
        [
            ("openings", &self.openings, openings),
            ("offers", &self.offers, offers),
            ("damaged states", &self.damaged, damaged),
        ]
    }

    pub fn missing(&self) -> Vec<String> {
        let mut missing = Vec::new();
        for (title, counts, all) in self.parts() {
            let never = all.into_iter().filter(|what| !counts.contains_key(what));
            missing.extend(never.map(|what| format!("{title}: {what}")));
        }
        missing
    }

    pub fn print(&self) {
        for (title, counts, _) in self.parts() {
            let counts = counts.iter();
            let shown: Vec<String> = counts.map(|(what, n)| format!("{what}: {n}")).collect();
            println!("{title}: {}", shown.join(", "));
        }
    }
}
