//! The benchmark: each version of the batch on the same loads, in turn in the same run; the search for a
//! free slot by itself; an offer to a gate; direct calls with and without the 42 check; and the stack that a batch needs.

use crate::book::{self, Counted};
use crate::clock::micros;
use crate::fast;
use crate::gates;
use crate::lists;
use crate::loads::{kind_of, loads, Load};
use crate::rounds::{report, Bars, Limits, Measured, Round};
use crate::search;
use crate::stack;
use crate::versions::{versions, Batch, BOOK, COUNTED, FAST, PROVED};
use crate::views::Version;
use plain::orders::write_release;
use std::hint::black_box;
use std::path::Path;
use std::time::{Duration, Instant};

const LEAST_ROUNDS: usize = 9;
/// Texts of the same load that are taken in turn, so that no branch is learnt by heart.
const VARIANTS: u64 = 8;
const AREA: usize = 40_000;
/// The bars: proved to plain for a batch, for one of the loads that W-203 is to make faster, and for
/// direct calls; and the batch's stack.
const BATCH: Limits = Limits {
    of_book: 1.2,
    of_counted: None,
};
const FASTER: Limits = Limits {
    of_counted: Some(0.8),
    ..BATCH
};
const CALLS: Limits = Limits {
    of_book: 1.5,
    of_counted: None,
};
const STACK_KB: f64 = 256.0;

/// The texts of a load up to five cuts: all lines, and both ends of the steady part's first and last
/// tenth. One row for each seed.
struct Cuts {
    lines: usize,
    tenth: usize,
    texts: Vec<Vec<Vec<u8>>>,
}

impl Cuts {
    fn of(variants: &[&Load]) -> Cuts {
        let load = variants[0];
        let tenth = load.steady.len() / 20 * 2;
        let (start, end) = (load.steady.start, load.steady.end);
        let cuts = [load.lines.len(), start, start + tenth, end - tenth, end];
        Cuts {
            lines: load.lines.len(),
            tenth,
            texts: variants
                .iter()
                .map(|load| cuts.iter().map(|&lines| load.text(lines)).collect())
                .collect(),
        }
    }

    /// One round of all versions, each text with one after the other.
    fn round(&self, table: &[u8], versions: &[(&str, Batch)], area: &mut [u8]) -> Vec<Round> {
        let mut times = vec![[0.0; 5]; versions.len()];
        for texts in &self.texts {
            for (cut, text) in texts.iter().enumerate() {
                for ((_, batch), times) in versions.iter().zip(&mut times) {
                    times[cut] += micros(|| {
                        let area = black_box(&mut *area);
                        black_box(batch(black_box(table), black_box(text), area));
                    });
                }
            }
        }
        let per = |time: f64, lines: usize| time / (lines * self.texts.len()) as f64;
        let figures = |times: &[f64; 5]| Round {
            whole: per(times[0], self.lines),
            first_tenth: per(times[2] - times[1], self.tenth),
            last_tenth: per(times[4] - times[3], self.tenth),
        };
        times.iter().map(figures).collect()
    }
}

fn measured(names: impl Iterator<Item = &'static str>) -> Vec<Measured> {
    names
        .map(|name| Measured {
            name,
            rounds: Vec::new(),
        })
        .collect()
}

fn keep(measured: &mut [Measured], round: Vec<Round>) {
    for (version, figures) in measured.iter_mut().zip(round) {
        version.rounds.push(figures);
    }
}

/// Rounds of all versions until the time is over; the first warms up and isn't kept.
fn measure(variants: &[&Load], time: Duration) -> Vec<Measured> {
    let versions = versions();
    let cuts = Cuts::of(variants);
    let mut area = vec![0; AREA];
    let mut found = measured(versions.iter().map(|(name, _)| *name));
    cuts.round(&variants[0].table, &versions, &mut area);
    let start = Instant::now();
    while start.elapsed() < time || found[0].rounds.len() < LEAST_ROUNDS {
        let round = cuts.round(&variants[0].table, &versions, &mut area);
        keep(&mut found, round);
    }
    found
}

/// The loads a and b are those that W-203 is to make faster.
fn limits(load: &Load) -> Limits {
    match load.name.as_bytes() {
        [b'a' | b'b', ..] => FASTER,
        _ => BATCH,
    }
}

/// What the plain version answers to a load must be what every version answers.
fn same_answers(load: &Load) -> bool {
    let text = load.text(load.lines.len());
    let mut expected = vec![0u8; AREA];
    let (code, line) = plain::programs::batch(&load.table, &text, &mut expected);
    let legal = code == 0 && line as usize == load.lines.len();
    legal
        && versions().iter().all(|(_, batch)| {
            let mut answers = vec![0u8; AREA];
            batch(&load.table, &text, &mut answers) == (0, line as u32) && answers == expected
        })
}

/// Measures each load for so many seconds, and a program's direct calls if one is named. True if all
/// versions give the plain one's answers and, where the bars are asked for, all are met.
pub fn run(seconds: u64, replay: Option<&Path>, with_bars: bool) -> bool {
    let time = Duration::from_secs(seconds);
    let mut bars = Bars::default();
    let mut same = true;
    println!("processor time; median of the rounds, in brackets the quartiles");
    let seeds: Vec<Vec<Load>> = (1..=VARIANTS).map(loads).collect();
    for (index, load) in seeds[0].iter().enumerate() {
        let variants: Vec<&Load> = seeds.iter().map(|loads| &loads[index]).collect();
        let bytes = load.text(load.lines.len()).len();
        if !variants.iter().all(|load| same_answers(load)) {
            println!("{}: answers differ", load.name);
            same = false;
            continue;
        }
        let found = measure(&variants, time);
        println!(
            "{}: {} orders, {bytes} bytes, {} rounds",
            load.name,
            load.lines.len(),
            found[0].rounds.len()
        );
        report(load.name, "order", &found, limits(load), &mut bars);
    }
    same &= search::bench(&mut bars);
    same &= gates::bench(&mut bars);
    direct_calls(&mut bars);
    if let Some(program) = replay {
        same &= lists::bench(program, CALLS, &mut bars).unwrap_or_else(|error| {
            println!("{}: {error}", program.display());
            false
        });
    }
    stacks(&mut bars);
    if !with_bars {
        return same;
    }
    if replay.is_none() {
        println!("bars: proved direct calls not judged, for no program is named by --replay");
    }
    bars.print() && same
}

/// Loads whose steady part is also made as direct calls.
const CALLED: [&str; 2] = ["pairs", "changes"];

/// A round of direct calls on each version's registry.
type CallRound = fn(&Load, bool) -> Round;
const CALL_ROUNDS: [(&str, CallRound); 3] = [
    (BOOK, call_round::<book::Registry>),
    (COUNTED, call_round::<book::Registry<Counted>>),
    (FAST, call_round::<fast::Registry>),
];

/// A long list of direct calls on one kept registry: the steady part of a load, over and over. The
/// library has no direct calls, so a proved program's are timed as a process.
fn direct_calls(bars: &mut Bars) {
    for load in loads(1) {
        if !CALLED.iter().any(|part| load.name.ends_with(part)) {
            continue;
        }
        for checked in [true, false] {
            let mut found = measured(CALL_ROUNDS.iter().map(|(name, _)| *name));
            for _ in 0..LEAST_ROUNDS {
                let rounds = CALL_ROUNDS.iter();
                let round = rounds.map(|(_, round)| round(&load, checked)).collect();
                keep(&mut found, round);
            }
            let title = format!(
                "direct calls, {}, {}",
                load.name,
                if checked {
                    "42 checked"
                } else {
                    "42 not checked"
                }
            );
            println!("{title}: {} calls", PASSES * load.steady.len());
            report(&title, "call", &found, CALLS, bars);
        }
    }
}

/// How often the steady part is passed, and how many calls are timed at once.
const PASSES: usize = 20;
const CHUNK: usize = 50;

/// Between two passes the flows that are left make room for the first ones, untimed.
fn call_round<R: Version>(load: &Load, checked: bool) -> Round {
    let mut registry = Box::new(R::EMPTY);
    registry.open(&load.table);
    let steady = load.lines[load.steady.clone()].iter();
    let calls: Vec<(u32, &[u8])> = steady
        .map(|line| (kind_of(line) as u32, line.as_slice()))
        .collect();
    let mut chunks = Vec::new();
    for _ in 0..PASSES {
        for flow in registry.view().slots.iter().flatten() {
            registry.call_unchecked(2, &write_release(flow.number));
        }
        for line in &load.lines[..load.steady.start] {
            registry.call_unchecked(1, line);
        }
        for chunk in calls.chunks_exact(CHUNK) {
            let time = micros(|| {
                for &(kind, line) in chunk {
                    black_box(if checked {
                        registry.call(kind, black_box(line))
                    } else {
                        registry.call_unchecked(kind, black_box(line))
                    });
                }
            });
            chunks.push(time / CHUNK as f64);
        }
    }
    let mean = |part: &[f64]| part.iter().sum::<f64>() / part.len() as f64;
    let tenth = chunks.len() / 10;
    Round {
        whole: mean(&chunks),
        first_tenth: mean(&chunks[..tenth]),
        last_tenth: mean(&chunks[chunks.len() - tenth..]),
    }
}

fn stacks(bars: &mut Bars) {
    for (name, batch) in versions() {
        let Some(bytes) = stack::peak(batch) else {
            println!("peak stack of {name}: not measured");
            continue;
        };
        let kilobytes = bytes as f64 / 1000.0;
        println!("peak stack of {name}: {kilobytes:.1} KB");
        if name == PROVED {
            bars.at_most("peak stack in KB".to_string(), kilobytes, STACK_KB);
        }
    }
}
