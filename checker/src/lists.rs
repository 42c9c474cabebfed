//! A program that makes a recorded list of direct calls, the proved `replay` for one: run as a
//! process beside the plain version and the others, for its answers and for its time.

use crate::book::{self, Counted};
use crate::clock::children_time;
use crate::compare::direct::{call_bytes, call_kind};
use crate::fast;
use crate::loads;
use crate::process::{Folder, Program};
use crate::rounds::{report, Bars, Limits, Measured, Round};
use crate::versions::{BOOK, COUNTED, FAST, PROVED};
use crate::views::Version;
use halls::input;
use halls::rng::Rng;
use plain::columns::lines;
use plain::handover::Printed;
use plain::programs::{make_calls, put_calls, put_refusal, put_state, replay, write_call};
use plain::registry::Answer;
use plain::table::Refusal;
use std::io;
use std::path::Path;

/// The command word with which this program replays a list on a version's registry.
pub const VERSION_REPLAY: &str = "version-replay";

/// What `replay` prints, from a version's registry; every call makes the 42 check.
pub fn version_replay<R: Version>(table: &[u8], calls: &[u8]) -> Vec<u8> {
    let mut printed = Vec::new();
    let mut registry = Box::new(R::EMPTY);
    if let Some(refusal) = opened(registry.as_mut(), table) {
        put_refusal(&mut printed, refusal.code, refusal.line);
    }
    put_calls(&mut printed, calls, |kind, given| {
        called(registry.as_mut(), kind, given)
    });
    let seen = registry.view();
    put_state(&mut printed, &seen.queues, &seen.stored, &seen.slots);
    printed
}

/// A version's registry opened on a table, and the refusal where there is one.
fn opened<R: Version>(registry: &mut R, table: &[u8]) -> Option<Refusal> {
    let (code, line) = registry.open(table);
    (code != 0).then(|| Refusal {
        code: u64::from(code),
        line: u64::from(line),
    })
}

/// A version's answer to a call, as the plain one's.
fn called<R: Version>(registry: &mut R, kind: u64, given: &[u8]) -> Answer {
    let answer = registry.call(kind as u32, given);
    Answer {
        code: u64::from(answer.code),
        slot: u64::from(answer.slot),
        link: u64::from(answer.link),
        level: u64::from(answer.level),
    }
}

/// What `handover` leaves, from a version's registry.
fn version_handover<R: Version>(table: &[u8], calls: &[u8]) -> Printed {
    let mut registry = Box::new(R::EMPTY);
    let refused = opened(registry.as_mut(), table);
    let made = make_calls(calls, |kind, given| called(registry.as_mut(), kind, given));
    Printed::of(calls, refused, &made, &registry.view().slots)
}

/// What `handover` leaves for a table and a list of calls.
pub type Handover = fn(&[u8], &[u8]) -> Printed;

/// What `handover` leaves, from each version's registry.
pub const HANDOVERS: [(&str, Handover); 3] = [
    (BOOK, version_handover::<book::Registry>),
    (COUNTED, version_handover::<book::Registry<Counted>>),
    (FAST, version_handover::<fast::Registry>),
];

/// What is printed for a table and a list of calls.
pub type Replay = fn(&[u8], &[u8]) -> Vec<u8>;

/// What `replay` prints, from each version's registry.
pub const REPLAYS: [(&str, Replay); 3] = [
    (BOOK, version_replay::<book::Registry>),
    (COUNTED, version_replay::<book::Registry<Counted>>),
    (FAST, version_replay::<fast::Registry>),
];

/// The words that `replay` is started with: calls by value, and in place.
const FORMS: [&[&str]; 2] = [&[], &["in-place"]];

/// Runs so many lists of calls through the program, each by value and in place; the first
/// difference from the plain version ends the run. Gives the number of calls.
pub fn compare(program: &Path, seed: u64, count: u64) -> Result<u64, String> {
    let mut programs = Vec::new();
    for words in FORMS {
        let form = Program::at(program, words);
        programs.push(form.map_err(|error| error.to_string())?);
    }
    let mut made = 0;
    for index in 0..count {
        let mut rng = Rng::new(seed, index);
        let (table, list, calls) = random_list(&mut rng);
        let expected = replay(&table, &list);
        for program in &programs {
            let words = &program.words;
            let printed = Folder::with(&table, &list)
                .and_then(|folder| program.run_in(&folder))
                .map_err(|error| format!("seed {seed} list {index} {words:?}: {error}"))?;
            if printed.out != expected {
                return Err(format!(
                    "seed {seed} list {index} {words:?}: what is printed differs"
                ));
            }
            made += calls;
        }
    }
    Ok(made)
}

/// A table and a list of calls; now and then the list is cut.
fn random_list(rng: &mut Rng) -> (Vec<u8>, Vec<u8>, u64) {
    let (table, mut list, calls) = whole_list(rng);
    if rng.once_in(5) {
        list.truncate(rng.index(list.len() + 1));
    }
    (table, list, calls)
}

/// A table and a batch's orders as calls, some of them to another call, cut or doubled.
pub fn whole_list(rng: &mut Rng) -> (Vec<u8>, Vec<u8>, u64) {
    let given = input(rng, false);
    let faulty = rng.once_in(2);
    let mut list = Vec::new();
    let mut calls = 0;
    for line in lines(&given.orders).iter().take(400) {
        let kind = call_kind(rng, line.bytes, faulty);
        list.extend(write_call(kind, &call_bytes(rng, line.bytes, faulty)));
        calls += 1;
    }
    (given.table, list, calls)
}

/// How often each list is timed.
const TURNS: usize = 31;

/// The program's time for a direct call, 42 check included, beside the other versions'. All are
/// timed as processes in turn, by their processor time, on the first calls of a list up to four cuts;
/// the difference of two cuts is the time of the calls between. False where an answer differs.
pub fn bench(program: &Path, limits: Limits, bars: &mut Bars) -> io::Result<bool> {
    let programs = programs(program)?;
    for load in loads::call_lists(1) {
        let title = format!("direct calls by processes, {}, 42 checked", load.name);
        let cuts = Cuts::of(&load)?;
        let whole = &cuts.folders[cuts.folders.len() - 1];
        let expected = programs[0].1.run_in(whole)?;
        for (_, program) in &programs[1..] {
            if program.run_in(whole)? != expected {
                println!("{title}: answers differ");
                return Ok(false);
            }
        }
        let mut found: Vec<Measured> = Vec::new();
        for (name, _) in &programs {
            found.push(Measured {
                name,
                rounds: Vec::new(),
            });
        }
        for _ in 0..TURNS {
            for (round, measured) in cuts.round(&programs)?.into_iter().zip(&mut found) {
                measured.rounds.push(round);
            }
        }
        println!("{title}: {} calls, {TURNS} rounds", load.steady.len());
        report(&title, "call", &found, limits, bars);
    }
    Ok(true)
}

/// The program named, and this one for each version.
fn programs(program: &Path) -> io::Result<Vec<(&'static str, Program)>> {
    let mut programs = vec![(PROVED, Program::at(program, &[])?)];
    let own = std::env::current_exe()?;
    for (name, _) in REPLAYS {
        programs.push((name, Program::at(&own, &[VERSION_REPLAY, name])?));
    }
    Ok(programs)
}

/// A folder for the calls up to each cut: both ends of the steady part's first and last tenth.
struct Cuts {
    calls: usize,
    tenth: usize,
    folders: Vec<Folder>,
}

impl Cuts {
    fn of(load: &loads::Load) -> io::Result<Cuts> {
        let (start, end) = (load.steady.start, load.steady.end);
        let tenth = load.steady.len() / 10;
        let mut folders = Vec::new();
        for calls in [start, start + tenth, end - tenth, end] {
            folders.push(Folder::with(&load.table, &load.text(calls))?);
        }
        Ok(Cuts {
            calls: load.steady.len(),
            tenth,
            folders,
        })
    }

    /// One round of all programs, each cut with one after the other.
    fn round(&self, programs: &[(&str, Program)]) -> io::Result<Vec<Round>> {
        let mut times = vec![[0.0; 4]; programs.len()];
        for (cut, folder) in self.folders.iter().enumerate() {
            for ((_, program), times) in programs.iter().zip(&mut times) {
                let before = children_time();
                program.run_in(folder)?;
                times[cut] = children_time() - before;
            }
        }
        let figures = |times: &[f64; 4]| Round {
            whole: (times[3] - times[0]) / self.calls as f64,
            first_tenth: (times[1] - times[0]) / self.tenth as f64,
            last_tenth: (times[3] - times[2]) / self.tenth as f64,
        };
        Ok(times.iter().map(figures).collect())
    }
}
