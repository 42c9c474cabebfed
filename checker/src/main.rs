//! The checker's commands.

use checker::gates::Version;
use checker::process::Program;
use checker::sequences::{only_the_first_grows, Judges};
use checker::sim::Fault;
use checker::{
    bench, compare, gates, handover, lists, offers, search, sequences, simulate, vectors,
};
use halls::tables::{Bounds, Count};
use plain::handover::Printed;
use std::fmt::Debug;
use std::io::Write;
use std::path::Path;
use std::process::ExitCode;

const USAGE: &str = "usage:
  checker admit                     (table.txt and orders.txt of the current folder)
  checker replay                    (table.txt and calls.txt)
  checker handover                  (table.txt and calls.txt)
  checker offers                    (offers.txt)
  checker vectors DIR
  checker compare --seed S --count N [--long]
  checker words --seed S --count N
  checker gates --seed S --count N
  checker sequences --seed S --count N
  checker simulate --seed S --count N
  checker compare-replay PROGRAM --seed S --count N
  checker compare-handover PROGRAM --seed S --count N
  checker compare-offers PROGRAM --seed S --count N
  checker bench [--seconds S] [--replay PROGRAM] [--bars]";

fn main() -> ExitCode {
    let arguments: Vec<String> = std::env::args().skip(1).collect();
    let words: Vec<&str> = arguments.iter().map(String::as_str).collect();
    let passed = match words.as_slice() {
        ["admit"] => Some(print(&vectors::admit_in(Path::new(".")))),
        ["replay"] => Some(print(&vectors::replay_in(Path::new(".")))),
        ["handover"] => Some(print_both(&vectors::handover_in(Path::new(".")))),
        ["offers"] => Some(print_both(&vectors::offers_in(Path::new(".")))),
        ["vectors", folder] => Some(report(folder, vectors::run(Path::new(folder)))),
        [lists::VERSION_REPLAY, version] => version_replay(version),
        ["compare", options @ ..] => run_compare(options),
        ["compare-replay", program, options @ ..] => run_compare_replay(program, options),
        ["compare-handover", program, options @ ..] => run_compare_handover(program, options),
        ["compare-offers", program, options @ ..] => run_compare_offers(program, options),
        ["words", options @ ..] => run_words(options),
        ["gates", options @ ..] => run_gates(options),
        ["sequences", options @ ..] => run_sequences(options),
        ["simulate", options @ ..] => run_simulate(options),
        ["bench", options @ ..] => Some(run_bench(options)),
        _ => None,
    };
    match passed {
        Some(true) => ExitCode::SUCCESS,
        Some(false) => ExitCode::FAILURE,
        None => {
            eprintln!("{USAGE}");
            ExitCode::from(2)
        }
    }
}

/// The word after an option's name.
fn word<'a>(options: &[&'a str], name: &str) -> Option<&'a str> {
    let at = options.iter().position(|&word| word == name)?;
    options.get(at + 1).copied()
}

/// The number after an option's name.
fn number(options: &[&str], name: &str) -> Option<u64> {
    word(options, name)?.parse().ok()
}

fn seed_and_count(options: &[&str]) -> Option<(u64, u64)> {
    Some((number(options, "--seed")?, number(options, "--count")?))
}

/// Shows a difference, with which no run passes.
fn differs(what: &str) -> bool {
    println!("differs: {what}");
    false
}

fn run_bench(options: &[&str]) -> bool {
    let seconds = number(options, "--seconds").unwrap_or(3);
    let replay = word(options, "--replay").map(Path::new);
    bench::run(seconds, replay, options.contains(&"--bars"))
}

fn print(text: &[u8]) -> bool {
    std::io::stdout().write_all(text).is_ok()
}

fn print_both(printed: &Printed) -> bool {
    print(&printed.out) && std::io::stderr().write_all(&printed.said).is_ok()
}

/// What a version's registry makes of the current folder's list of calls.
fn version_replay(version: &str) -> Option<bool> {
    let (_, replay) = lists::REPLAYS.iter().find(|(name, _)| *name == version)?;
    let file = |name| vectors::text(Path::new("."), name);
    Some(print(&replay(&file("table.txt"), &file("calls.txt"))))
}

/// Whether it passed; an error is shown with the name of what was read or run.
fn report(name: &str, outcome: std::io::Result<bool>) -> bool {
    outcome.unwrap_or_else(|error| {
        eprintln!("{name}: {error}");
        false
    })
}

fn run_compare_replay(program: &str, options: &[&str]) -> Option<bool> {
    let (seed, count) = seed_and_count(options)?;
    match lists::compare(Path::new(program), seed, count) {
        Err(what) => Some(differs(&what)),
        Ok(calls) => {
            println!("lists: {count}, calls: {calls}");
            Some(calls > 0)
        }
    }
}

/// Runs a program beside the plain version; `compare` shows what was met and gives what should have been and wasn't.
fn run_beside(
    program: &str,
    options: &[&str],
    compare: impl Fn(&Program, u64, u64) -> Result<Vec<&'static str>, String>,
) -> Option<bool> {
    let (seed, count) = seed_and_count(options)?;
    let program = Program::at(Path::new(program), &[]).map_err(|error| error.to_string());
    match program.and_then(|program| compare(&program, seed, count)) {
        Err(what) => Some(differs(&what)),
        Ok(missing) => Some(none_missing(&missing)),
    }
}

fn run_compare_handover(program: &str, options: &[&str]) -> Option<bool> {
    run_beside(program, options, |program, seed, count| {
        let met = handover::compare(program, seed, count)?;
        met.print();
        Ok(met.missing())
    })
}

fn run_compare_offers(program: &str, options: &[&str]) -> Option<bool> {
    run_beside(program, options, |program, seed, count| {
        let met = offers::compare(program, seed, count)?;
        met.print();
        Ok(met.missing())
    })
}

/// Shows what a run should have met and didn't.
fn none_missing(missing: &[impl Debug]) -> bool {
    if !missing.is_empty() {
        println!("never met: {missing:?}");
    }
    missing.is_empty()
}

fn run_compare(options: &[&str]) -> Option<bool> {
    let (seed, count) = seed_and_count(options)?;
    match compare::run(seed, count, options.contains(&"--long")) {
        Err(what) => Some(differs(&what)),
        Ok(report) => {
            report.print();
            let (codes, kinds) = (report.missing(), report.missing_kinds());
            let complete = codes.is_empty() && kinds.is_empty();
            if !complete {
                println!("never met: {codes:?} {kinds:?}");
            }
            Some(complete)
        }
    }
}

fn run_words(options: &[&str]) -> Option<bool> {
    let (seed, count) = seed_and_count(options)?;
    let searches = search::searches();
    match search::compare(seed, count, &searches) {
        Err(what) => Some(differs(&what)),
        Ok(met) => {
            let names: Vec<&str> = searches.iter().map(|(name, _)| *name).collect();
            println!("searches: {}", names.join(", "));
            met.print();
            Some(none_missing(&met.missing()))
        }
    }
}

fn run_gates(options: &[&str]) -> Option<bool> {
    let (seed, count) = seed_and_count(options)?;
    let (plain, linked) = (Version::plain(), Version::linked());
    match gates::compare(seed, count, &plain, &linked) {
        Err(what) => Some(differs(&what)),
        Ok(met) => {
            let others = linked.iter().map(|version| version.name);
            let names: Vec<&str> = [plain.name].into_iter().chain(others).collect();
            println!("gates: {}", names.join(", "));
            met.print();
            Some(none_missing(&met.missing()))
        }
    }
}

fn run_sequences(options: &[&str]) -> Option<bool> {
    let (seed, count) = seed_and_count(options)?;
    let report = match sequences::run(seed, count, &Judges::right()) {
        Ok(report) => report,
        Err(what) => return Some(differs(&what)),
    };
    report.print();
    let mistaken = Judges {
        count: only_the_first_grows,
        ..Judges::right()
    };
    let found = sequences::run(seed, count, &mistaken).err();
    let shown = found.as_deref().unwrap_or("doesn't show");
    println!("only the first flow's bursts grow: {shown}");
    Some(report.complete() && found.is_some())
}

fn run_simulate(options: &[&str]) -> Option<bool> {
    let (seed, count) = seed_and_count(options)?;
    let outcome = simulate::run(seed, count).and_then(|report| {
        report.print();
        let met = [
            report.halls,
            report.changed,
            report.best_effort[1],
            report.shortest[0],
        ];
        Ok(!met.contains(&0) && catches_mistakes(seed)?)
    });
    Some(outcome.unwrap_or_else(|what| {
        println!("failed: {what}");
        false
    }))
}

/// A mistake shows in one of so many halls, mostly in one of the first.
const MISTAKEN_HALLS: u64 = 1_000;

/// What a bound may be mistaken about.
const MISTAKES: [(&str, Count); 2] = [
    ("best-effort frame left out", simulate::WITHOUT_BEST_EFFORT),
    ("source's burst at every hop", simulate::WITHOUT_GROWTH),
];

/// Whether the search finds each mistake in thresholds, and in buffers.
fn catches_mistakes(seed: u64) -> Result<bool, String> {
    for (mistake, count) in MISTAKES {
        let delays = Bounds {
            delays: count,
            ..Bounds::RIGHT
        };
        let backlogs = Bounds {
            backlogs: count,
            ..Bounds::RIGHT
        };
        for (limits, bounds) in [("thresholds", delays), ("buffers", backlogs)] {
            let found = first_fault(seed, bounds)?;
            let Some((fault, number)) = found else {
                println!("{limits}, {mistake}: doesn't show");
                return Ok(false);
            };
            println!("{limits}, {mistake}: shows in hall {number}, {fault:?}");
        }
    }
    Ok(true)
}

/// The first that the search finds, and the number of the hall.
fn first_fault(seed: u64, bounds: Bounds) -> Result<Option<(Fault, u64)>, String> {
    let halls = simulate::run_by(seed, MISTAKEN_HALLS, bounds, |trial| trial);
    for (found, number) in halls.zip(1..) {
        if let Some(fault) = found? {
            return Ok(Some((fault, number)));
        }
    }
    Ok(None)
}
