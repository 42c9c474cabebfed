//! A program that puts a list of frames to a gate, the proved `offers` for one: run as a process beside the plain version.

use crate::gates::drawn::{opening, Clock, Situation};
use crate::process::{Folder, Program};
use halls::orders::one_byte;
use halls::rng::Rng;
use plain::gate::{offer, open, DROPPED, FRAME_REFUSED, GATE_REFUSED, PASSED};
use plain::offers::{make_offers, offers, write_offer, write_opening, MOST_OFFER_BYTES};
use std::collections::BTreeMap;

/// Runs so many lists through the program; the first difference from the plain version ends the run.
pub fn compare(program: &Program, seed: u64, count: u64) -> Result<Met, String> {
    let mut met = Met::default();
    for index in 0..count {
        let list = random_list(&mut Rng::new(seed, index));
        one_list(program, &list).map_err(|what| format!("seed {seed} list {index}: {what}"))?;
        met.add(&list);
    }
    Ok(met)
}

fn one_list(program: &Program, list: &[u8]) -> Result<(), String> {
    let expected = offers(list);
    let found = Folder::holding(&[("offers.txt", list)])
        .and_then(|folder| program.run_in(&folder))
        .map_err(|error| error.to_string())?;
    if found.out != expected.out {
        return Err("what is printed differs".to_string());
    }
    if found.said != expected.said {
        return Err("what is said on standard error differs".to_string());
    }
    Ok(())
}

/// The greatest number that so many columns hold.
fn widest(columns: u32) -> u64 {
    10u64.pow(columns) - 1
}

const MOST_OFFERS: u64 = 60;

/// A list, now and then damaged.
fn random_list(rng: &mut Rng) -> Vec<u8> {
    let (_, [rate, burst, frame]) = opening(rng);
    let rate = rate.min(widest(9));
    let burst = burst.min(widest(8));
    let frame = frame.min(widest(5));
    let mut clock = Clock::drawn(rng);
    clock.time = clock.time.min(widest(9));
    let mut list = write_opening(rate, burst, frame, clock.time);
    let (mut gate, code) = open(rate, burst, frame, clock.reading());
    let mut passed = None;
    let count = [0, rng.between(1, 5), rng.between(5, MOST_OFFERS)];
    for _ in 0..rng.pick(&count) {
        if code != PASSED {
            // They aren't read.
            list.extend(write_offer(84, 1));
            continue;
        }
        let now = Situation {
            gate,
            clock,
            passed,
        };
        let offered = now.offer(rng);
        let length = offered.length.min(widest(5));
        let wait = offered.wait.min(widest(9));
        list.extend(write_offer(length, wait));
        clock.time += wait;
        let answer = offer(gate, length, clock.reading());
        gate = answer.0;
        if answer.1 == PASSED {
            passed = Some(clock.time);
        }
    }
    damage(rng, &mut list);
    list
}

/// Leaves most lists alone; else none of it, all from some place on, one byte, some more, or far too many.
fn damage(rng: &mut Rng, list: &mut Vec<u8>) {
    match rng.between(0, 29) {
        0 => list.clear(),
        1..=3 => list.truncate(rng.index(list.len() + 1)),
        4..=7 => one_byte(rng, list),
        8..=10 => list.extend_from_slice(rng.pick(&[
            &b"\n"[..],
            b"   84       0\n",
            b"    84         0\n",
        ])),
        11 => {
            let line = write_offer(84, rng.between(0, 1_000));
            let length = MOST_OFFER_BYTES + rng.index(2 * line.len());
            while list.len() < length {
                list.extend_from_slice(&line);
            }
        }
        _ => {}
    }
}

/// The kinds that a list is of.
fn kinds(list: &[u8]) -> Vec<&'static str> {
    let made = make_offers(list);
    let codes = |code: u32| made.answers.iter().any(|answer| answer.1 == code);
    let refused = codes(GATE_REFUSED);
    let corner = made
        .answers
        .windows(2)
        .any(|pair| pair[1].0.reading < pair[0].0.reading);
    let of = [
        made.answers.len() > 1 && codes(PASSED),
        codes(DROPPED),
        codes(FRAME_REFUSED),
        corner,
        refused,
        refused && list.iter().filter(|&&byte| byte == b'\n').count() > 1,
        list.is_empty(),
        made.answers.len() == 1 && made.end.is_none() && !refused,
        made.end == Some(1),
        made.end.is_some_and(|line| line > 1),
        made.end.is_some() && !list.ends_with(b"\n"),
        list.len() > MOST_OFFER_BYTES,
    ];
    let kinds = KINDS.iter().zip(of);
    kinds.filter(|(_, of)| *of).map(|(kind, _)| *kind).collect()
}

/// In the order of the tests for them.
const KINDS: [&str; 12] = [
    "frames offered",
    "a frame dropped",
    "a frame refused",
    "a reading past the corner",
    "a refused opening",
    "a refused opening, lines after it",
    "no line",
    "an opening alone",
    "ended at the first line",
    "ended at a later line",
    "ended, the last line unended",
    "a list above 200,000 bytes",
];

/// How often each kind of list occurred.
#[derive(Default)]
pub struct Met {
    lists: u64,
    kinds: BTreeMap<&'static str, u64>,
}

impl Met {
    fn add(&mut self, list: &[u8]) {
        self.lists += 1;
        for kind in kinds(list) {
            *self.kinds.entry(kind).or_default() += 1;
        }
    }

    pub fn missing(&self) -> Vec<&'static str> {
        let never = |kind: &&str| !self.kinds.contains_key(kind);
        KINDS.into_iter().filter(never).collect()
    }

    pub fn print(&self) {
        let kinds = self.kinds.iter();
        let shown: Vec<String> = kinds.map(|(kind, n)| format!("{kind}: {n}")).collect();
        println!("offers: {} lists, {}", self.lists, shown.join(", "));
    }
}
