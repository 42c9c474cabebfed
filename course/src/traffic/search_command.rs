//! The command's search: its options, its progress, and the SENDS that it writes.

use super::hall::Hall;
use super::run::Arrivals;
use super::schedule;
use super::search::{Limits, Search};
use super::{unreadable, usage};
use crate::arguments::Arguments;
use crate::folder::cannot_write;
use crate::numbers::counted;
use crate::status::Outcome;
use std::io::{IsTerminal, Write};
use std::path::Path;
use std::time::{Duration, Instant};

const SECONDS: u64 = 10;
const SEED: u64 = 1;

/// What was found: the name of SENDS, its text, and what to print before the report.
pub struct Found {
    pub name: String,
    pub text: String,
    pub preface: String,
}

pub fn command(arguments: &Arguments, hall: &Hall, arrivals: &Arrivals) -> Result<Found, Outcome> {
    if hall.flows.is_empty() {
        let why = "no flow is held after the orders: nothing can be sent";
        return Err(unreadable(why.to_string()));
    }
    let limits = limits(arguments)?;
    let seed = arguments.number("--seed")?.unwrap_or(SEED);
    let only = arguments.value("--queue");
    let only = only.map(|word| queue_named(hall, word)).transpose()?;
    let mut search = Search::new(hall, arrivals, seed, only);
    climb(&mut search, &limits);
    let Some(best) = search.best.take() else {
        return Err(unreadable("no time for a single run".to_string()));
    };
    let best = schedule::pruned(hall, arrivals, best);
    let tries = counted(search.tries as usize, "run", "runs");
    let how = format!("found by --search --seed {seed} in {tries}");
    let text = schedule::write(hall, &best.sends, &how);
    search.best = Some(best);
    let Some(path) = arguments.value("--out") else {
        let preface = format!("{text}\n");
        let name = "the SENDS found".to_string();
        return Ok(Found {
            name,
            text,
            preface,
        });
    };
    std::fs::write(path, &text).map_err(|error| cannot_write(Path::new(path), &error))?;
    let preface = format!("{path}: {}\n", search.words());
    let name = path.to_string();
    Ok(Found {
        name,
        text,
        preface,
    })
}

fn limits(arguments: &Arguments) -> Result<Limits, Outcome> {
    let seconds = arguments.number("--seconds")?.unwrap_or(SECONDS);
    let tries = arguments.number("--tries")?.unwrap_or(u64::MAX);
    if seconds == 0 || tries == 0 {
        return Err(usage("--seconds and --tries are at least 1"));
    }
    Ok(Limits {
        until: Instant::now() + Duration::from_secs(seconds.min(1_000_000)),
        tries,
    })
}

/// Searches; a terminal is shown how far it is.
fn climb(search: &mut Search, limits: &Limits) {
    let terminal = std::io::stderr().is_terminal();
    search.climb_all(limits, |search| {
        if terminal {
            let _ = write!(std::io::stderr(), "\r{}", search.words());
        }
    });
    if terminal {
        let _ = writeln!(std::io::stderr());
    }
}

/// The queue that `LINK.LEVEL` names; it must carry a flow.
fn queue_named(hall: &Hall, word: &str) -> Result<usize, Outcome> {
    let named = |index: &usize| {
        let queue = &hall.queues[*index];
        format!("{}.{}", queue.link, queue.level) == word
    };
    let found = (0..hall.queues.len()).find(named);
    found
        .filter(|&queue| hall.bounds[queue].is_some())
        .ok_or_else(|| {
            usage(&format!(
                "--queue {word}: no such queue carries a flow; LINK.LEVEL is expected"
            ))
        })
}
