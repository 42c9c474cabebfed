//! A program that writes the held flows as order lines, the proved `handover` for one: run as a process beside the plain version,
//! and its text read back by every version.

mod drawn;
mod met;

use crate::process::{Folder, Program};
use crate::versions::{admitted_in_turn, versions, Batch};
use drawn::random_list;
use halls::rng::Rng;
use met::List;
pub use met::Met;
use plain::handover::{handover_text, Printed};
use plain::orders::read_order;
use plain::programs::{begin, make_calls};
use plain::registry::{Answer, Registry};

/// Runs so many lists of calls through the program; the first difference from the plain version, or the first text that doesn't
/// read back as it was written, ends the run.
pub fn compare(program: &Program, seed: u64, count: u64) -> Result<Met, String> {
    let batches = versions();
    let mut met = Met::default();
    for index in 0..count {
        let (table, calls) = random_list(&mut Rng::new(seed, index));
        one_list(program, &batches, &table, &calls, &mut met)
            .map_err(|what| format!("seed {seed} list {index}: {what}"))?;
    }
    Ok(met)
}

fn one_list(
    program: &Program,
    batches: &[(&'static str, Batch)],
    table: &[u8],
    calls: &[u8],
    met: &mut Met,
) -> Result<(), String> {
    let (mut registry, refused) = Registry::open(table);
    let made = make_calls(calls, |kind, given| registry.call(kind, given));
    let expected = Printed::of(calls, refused, &made, &registry.slots);
    let found = Folder::with(table, calls)
        .and_then(|folder| program.run_in(&folder))
        .map_err(|error| error.to_string())?;
    if found.out != expected.out {
        return Err("what is printed differs".to_string());
    }
    if found.said != expected.said {
        return Err("what is said on standard error differs".to_string());
    }
    if refused.is_none() {
        read_back(batches, table, &found.out, &registry)?;
    }
    met.add(&List {
        registry: &registry,
        refused: refused.is_some(),
        made: &made,
        bytes: calls.len(),
    });
    Ok(())
}

/// Whether a text, read as a batch over the table, is admitted line by line by every version and gives the flows and the figures
/// of the registry that it was written from, and is written again as it stands.
pub fn read_back(
    batches: &[(&'static str, Batch)],
    table: &[u8],
    text: &[u8],
    from: &Registry,
) -> Result<(), String> {
    let (mut registry, lines) =
        begin(table, text).map_err(|refusal| format!("read back: {refusal:?}"))?;
    for (index, line) in lines.iter().enumerate() {
        let answer = registry.step(read_order(line));
        if answer != Answer::done(index) {
            return Err(format!("read back: line {}: {answer:?}", index + 1));
        }
    }
    admitted_in_turn(batches, table, text, lines.len())?;
    if registry.held() != from.held() {
        return Err("read back: other flows, or in another order".to_string());
    }
    let differs = |queue: &&_| registry.aggregate(queue) != from.aggregate(queue);
    if let Some(queue) = from.queues.iter().find(differs) {
        return Err(format!("read back: other figures at {:?}", queue.hop()));
    }
    if handover_text(&registry.slots) != text {
        return Err("written again: another text".to_string());
    }
    Ok(())
}
