//! The proved offer's time beside that of the one in C, each a call through a pointer.

use super::{from_c, to_c, IN_C};
use crate::clock::micros;
use crate::rounds::{spread, Bars};
use crate::versions::PROVED;
use halls::rng::Rng;
use plain::gate::{self, Gate, DROPPED, FRAME_REFUSED, GATE_REFUSED, PASSED};
use proved::gate::{Offer, CALLS};
use std::collections::BTreeSet;
use std::hint::black_box;

/// How many offers are timed at once, and how often.
const TIMED: usize = 10_000;
const ROUNDS: usize = 101;
/// The proved offer takes at most so many times as long as the one in C.
const MOST: f64 = 1.2;
const SEED: u64 = 1;

/// Gates, offers to them (which gate, length, reading), and the codes that these get.
struct Load {
    title: &'static str,
    codes: &'static [u32],
    gates: Vec<Gate>,
    offers: Vec<(usize, u64, u32)>,
}

impl Load {
    /// Offers to gates in turn; the lengths and the µs since the offer before are drawn.
    fn drawn(
        title: &'static str,
        codes: &'static [u32],
        gates: Vec<Gate>,
        [length, wait]: [(u64, u64); 2],
    ) -> Load {
        let mut rng = Rng::new(SEED, 0);
        let mut reading = 0;
        let mut offers = Vec::new();
        for at in 0..TIMED {
            reading += rng.between(wait.0, wait.1) as u32;
            offers.push((at % gates.len(), rng.between(length.0, length.1), reading));
        }
        Load {
            title,
            codes,
            gates,
            offers,
        }
    }

    /// Whether an offer answers as the plain one does, with all of this load's codes and no other.
    fn same_answers(&self, offer: Offer) -> bool {
        let mut gates = self.gates.clone();
        let mut codes = BTreeSet::new();
        for &(at, length, reading) in &self.offers {
            let known = gate::offer(gates[at], length, reading);
            if from_c(offer(to_c(gates[at]), length, reading)) != known {
                return false;
            }
            gates[at] = known.0;
            codes.insert(known.1);
        }
        codes == self.codes.iter().copied().collect()
    }

    /// Nanoseconds for an offer.
    fn nanos(&self, offer: Offer) -> f64 {
        let mut gates: Vec<_> = self.gates.iter().copied().map(to_c).collect();
        let time = micros(|| {
            for &(at, length, reading) in &self.offers {
                gates[at] = black_box(black_box(offer)(gates[at], length, reading)).gate;
            }
        });
        black_box(gates);
        1000.0 * time / TIMED as f64
    }
}

/// 1,542 bytes at 1 Gbit/s take 13 µs; at 1 kbit/s all the offers together don't bring the tokens of 84 bytes. In the mix one
/// gate of four is none.
fn loads() -> [Load; 3] {
    let opened = |rate, frame| gate::open(rate, 3_084, frame, 0).0;
    let empty = Gate {
        tokens: 0,
        ..opened(1, 1_542)
    };
    let mixed = vec![
        opened(1_000, 1_000),
        opened(20_000, 1_000),
        opened(100_000, 1_000),
        Gate::default(),
    ];
    let all = &[PASSED, DROPPED, FRAME_REFUSED, GATE_REFUSED];
    let (frames, any) = ((84, 1_542), (40, 1_100));
    [
        Load::drawn(
            "frames that pass",
            &[PASSED],
            vec![opened(1_000_000, 1_542)],
            [frames, (13, 40)],
        ),
        Load::drawn(
            "frames that are dropped",
            &[DROPPED],
            vec![empty],
            [frames, (0, 60)],
        ),
        Load::drawn("a mix with refused ones", all, mixed, [any, (0, 100)]),
    ]
}

/// Times both, one after the other in each round. False where an answer is wrong.
pub fn bench(bars: &mut Bars) -> bool {
    let Some(calls) = CALLS else {
        return true;
    };
    let offers = [calls.offer, calls.plain_offer];
    for load in loads() {
        let title = format!("gate, {}", load.title);
        if !offers.iter().all(|offer| load.same_answers(*offer)) {
            println!("{title}: answers differ");
            return false;
        }
        let mut times = [Vec::new(), Vec::new()];
        for _ in 0..ROUNDS {
            for (offer, times) in offers.iter().zip(&mut times) {
                times.push(load.nanos(*offer));
            }
        }
        println!("{title}: {ROUNDS} rounds of {TIMED} offers");
        report(title, &times, bars);
    }
    true
}

/// Prints both and the ratio, which is judged.
fn report(title: String, times: &[Vec<f64>; 2], bars: &mut Bars) {
    for (name, times) in [PROVED, IN_C].iter().zip(times) {
        let found = spread(times.iter().copied());
        println!(
            "  {name:<7}{:>8.2} ns per offer ({:.2} to {:.2})",
            found.median, found.low, found.high
        );
    }
    let [proved, in_c] = times;
    let ratio = spread(proved.iter().zip(in_c).map(|(one, other)| one / other));
    println!(
        "  {PROVED} / {IN_C}: {:.2} ({:.2} to {:.2}), bar {MOST}",
        ratio.median, ratio.low, ratio.high
    );
    bars.at_most(format!("{title}, {PROVED} / {IN_C}"), ratio.median, MOST);
}
