//! W-207's gate: the proved one and the one in C beside the plain one over chains of offers, each chain judged by what the paper
//! promises of it; and their time.

mod bench;
pub mod drawn;
mod met;
mod promises;

use crate::versions::PROVED;
pub use bench::bench;
use drawn::{damage, opening, Clock, Situation};
use halls::rng::Rng;
pub use met::Met;
use plain::gate::{self, Gate, GATE_REFUSED, PASSED};
use promises::Chain;
use proved::gate as linked;

const IN_C: &str = "in C";

type Answer = (Gate, u32);

/// A gate's two calls.
pub struct Version {
    pub name: &'static str,
    pub open: Box<dyn Fn(u64, u64, u64, u32) -> Answer>,
    pub offer: Box<dyn Fn(Gate, u64, u32) -> Answer>,
}

impl Version {
    pub fn plain() -> Version {
        Version {
            name: "plain",
            open: Box::new(gate::open),
            offer: Box::new(gate::offer),
        }
    }

    /// The proved gate, and the one in C with the proved one's opening; none where they aren't linked.
    pub fn linked() -> Vec<Version> {
        let Some(calls) = linked::CALLS else {
            return Vec::new();
        };
        let offers = [(PROVED, calls.offer), (IN_C, calls.plain_offer)];
        let version = |(name, offer)| Version::of_c(name, calls.open, offer);
        offers.map(version).into()
    }

    fn of_c(name: &'static str, open: linked::Open, offer: linked::Offer) -> Version {
        Version {
            name,
            open: Box::new(move |rate, burst, frame, reading| {
                from_c(open(rate, burst, frame, reading))
            }),
            offer: Box::new(move |gate, length, reading| {
                from_c(offer(to_c(gate), length, reading))
            }),
        }
    }
}

fn to_c(gate: Gate) -> linked::Gate {
    linked::Gate {
        rate: gate.rate,
        burst: gate.burst,
        frame: gate.frame,
        tokens: gate.tokens,
        reading: gate.reading,
    }
}

fn from_c(answer: linked::Answer) -> Answer {
    let gate = Gate {
        rate: answer.gate.rate,
        burst: answer.gate.burst,
        frame: answer.gate.frame,
        tokens: answer.gate.tokens,
        reading: answer.gate.reading,
    };
    (gate, answer.code)
}

/// A version whose answers lead on, and others that must answer the same.
struct Beside<'a> {
    one: &'a Version,
    others: &'a [Version],
}

impl Beside<'_> {
    fn answer(&self, asked: &str, call: impl Fn(&Version) -> Answer) -> Result<Answer, String> {
        let known = call(self.one);
        for other in self.others {
            let found = call(other);
            if found != known {
                let name = other.name;
                return Err(format!(
                    "{name} answers {found:?} to {asked}, not {known:?}"
                ));
            }
        }
        Ok(known)
    }

    fn open(&self, numbers: [u64; 3], reading: u32) -> Result<Answer, String> {
        let [rate, burst, frame] = numbers;
        let asked = format!("an opening {numbers:?} at {reading}");
        self.answer(&asked, |version| {
            (version.open)(rate, burst, frame, reading)
        })
    }

    fn offer(&self, gate: Gate, length: u64, reading: u32) -> Result<Answer, String> {
        let asked = format!("{length} bytes at {reading} offered to {gate:?}");
        self.answer(&asked, |version| (version.offer)(gate, length, reading))
    }
}

/// Draws so many chains of offers; the first answer that differs from the one version's, or a promise that its chain breaks,
/// ends the run.
pub fn compare(seed: u64, count: u64, one: &Version, others: &[Version]) -> Result<Met, String> {
    let beside = Beside { one, others };
    let mut met = Met::default();
    for index in 0..count {
        let mut rng = Rng::new(seed, index);
        one_chain(&mut rng, &beside, &mut met)
            .map_err(|what| format!("seed {seed} chain {index}: {what}"))?;
    }
    Ok(met)
}

const MOST_OFFERS: u64 = 80;

fn one_chain(rng: &mut Rng, beside: &Beside, met: &mut Met) -> Result<(), String> {
    let (kind, numbers) = opening(rng);
    let mut clock = Clock::drawn(rng);
    let (mut gate, code) = beside.open(numbers, clock.reading())?;
    met.opening(&kind, code);
    if code != PASSED {
        return no_gate(rng, beside, (gate, code));
    }
    let mut chain = Chain::opened(numbers, clock.time);
    for _ in 0..rng.between(1, MOST_OFFERS) {
        let passed = chain.last_passed();
        let offered = Situation {
            gate,
            clock,
            passed,
        }
        .offer(rng);
        clock.time += offered.wait;
        let reading = clock.reading();
        if rng.once_in(3) {
            let (kind, state) = damage(rng, gate);
            let (after, code) = beside.offer(state, offered.length, reading)?;
            unchanged_if_refused(state, after, code)?;
            met.damaged(&kind, code);
        }
        let (after, code) = beside.offer(gate, offered.length, reading)?;
        unchanged_if_refused(gate, after, code)?;
        let seen = chain.judge(clock.time, offered.length, code)?;
        met.offer(&offered, code, &seen);
        gate = after;
    }
    Ok(())
}

/// A refused opening leaves nothing, and whatever is offered to that is 61.
fn no_gate(rng: &mut Rng, beside: &Beside, opened: Answer) -> Result<(), String> {
    let none = (Gate::default(), GATE_REFUSED);
    let offered = beside.offer(opened.0, rng.pick(&[0, 84, u64::MAX]), rng.draw() as u32)?;
    if opened != none || offered != none {
        return Err(format!(
            "a refused opening leaves {opened:?}, then {offered:?}"
        ));
    }
    Ok(())
}

fn unchanged_if_refused(before: Gate, after: Gate, code: u32) -> Result<(), String> {
    if code > gate::DROPPED && after != before {
        return Err(format!("{code} leaves {after:?} of {before:?}"));
    }
    Ok(())
}
