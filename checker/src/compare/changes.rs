//! W-206: what a run met of changes; that each is done exactly when the held flows, with the one so changed, meet the rules,
//! and answered as a release and a registration after it would be.

use super::direct::Counts;
use plain::causes::{BACKLOG, COLUMNS, DELAY, DONE, FRAME, HELD, NOT_HELD, RANGE, RATE};
use plain::columns::Line;
use plain::orders::{Change, Order, CHANGE, KIND};
use plain::registry::{Answer, Registry};
use plain::slips::Slips;
use std::collections::{BTreeMap, BTreeSet};

/// The codes that changes can get.
pub const CODES: [u64; 8] = [DONE, COLUMNS, RANGE, NOT_HELD, FRAME, RATE, DELAY, BACKLOG];

/// What a change that is done makes of its flow.
const DONE_TO: [&str; 4] = [
    "neither number changed",
    "rate alone changed",
    "burst alone changed",
    "both numbers changed",
];
/// A malformed change of a column too few or too many, by its length.
const LENGTHS: [(usize, &str); 2] = [
    (24, "a change of 24 columns"),
    (26, "a change of 26 columns"),
];
/// A later answer shows that a flow is held still whose change was refused by 21 to 23.
const KEPT: &str = "held after a refused change";

/// The changes in the batches of a run.
#[derive(Default)]
pub struct Changes {
    pub answers: Counts,
    pub kinds: BTreeMap<&'static str, u64>,
}

impl Changes {
    /// Whatever a run must have met and didn't.
    pub fn missing(&self) -> Vec<String> {
        let codes = CODES
            .iter()
            .filter(|code| !self.answers.contains_key(code))
            .map(|code| format!("{code} to a change"));
        let lengths = LENGTHS.iter().map(|(_, name)| *name);
        let kinds = DONE_TO.into_iter().chain(lengths).chain([KEPT]);
        let kinds = kinds.filter(|kind| !self.kinds.contains_key(kind));
        codes.chain(kinds.map(str::to_string)).collect()
    }

    fn count(&mut self, kind: &'static str) {
        *self.kinds.entry(kind).or_default() += 1;
    }
}

/// The changes of one batch, and the flows of which one was refused for want of room.
pub struct Watch<'a> {
    changes: &'a mut Changes,
    refused: BTreeSet<u64>,
}

impl<'a> Watch<'a> {
    pub fn new(changes: &'a mut Changes) -> Watch<'a> {
        let refused = BTreeSet::new();
        Watch { changes, refused }
    }

    /// One line more, as it was read and answered; the registry is the one before it.
    pub fn add(
        &mut self,
        line: &Line,
        order: &Result<Order, u64>,
        answer: &Answer,
        before: &Registry,
    ) -> Result<(), String> {
        self.see_kept(order, answer.code);
        if KIND.read(line.bytes) != Ok(CHANGE) || !line.ended {
            return Ok(());
        }
        *self.changes.answers.entry(answer.code).or_default() += 1;
        match order {
            Ok(Order::Change(change)) => self.add_change(change, answer, before),
            _ => {
                let length = |(columns, _): &&(usize, &str)| *columns == line.bytes.len();
                if let Some((_, kind)) = LENGTHS.iter().find(length) {
                    self.changes.count(kind);
                }
                Ok(())
            }
        }
    }

    fn add_change(
        &mut self,
        change: &Change,
        answer: &Answer,
        before: &Registry,
    ) -> Result<(), String> {
        let Some((index, flow)) = before.changed(change) else {
            return Ok(());
        };
        // Beside the others nothing but 17 and 21 to 23 can be against it: it was admitted before, and its place is free.
        let again = before.without(index).judge(&flow).refused;
        if again.unwrap_or(Answer::done(index)) != *answer {
            return Err(format!(
                "plain: a change gets {answer:?}, released and registered again {again:?}"
            ));
        }
        if (answer.code == DONE) != meets_rules(change, before) {
            return Err(format!("plain: a change gets {answer:?} against the rules"));
        }
        match answer.code {
            DONE => self.changes.count(done_to(change, before, index)),
            RATE | DELAY | BACKLOG => {
                self.refused.insert(change.number);
            }
            _ => {}
        }
        Ok(())
    }

    /// Whether an answer shows that a flow is held still.
    fn see_kept(&mut self, order: &Result<Order, u64>, code: u64) {
        let held = match (order, code) {
            (Ok(Order::Register(flow)), HELD) => flow.number,
            (Ok(Order::Release(number)), DONE) => *number,
            (Ok(Order::Change(change)), DONE) => change.number,
            _ => return,
        };
        if self.refused.remove(&held) {
            self.changes.count(KEPT);
        }
    }
}

/// Whether the held flows, with this one so changed, meet the rules that a change can break: 17, and 21 to 23 at every link.
fn meets_rules(change: &Change, before: &Registry) -> bool {
    let mut after = before.clone();
    after.put_changed(change);
    let links = after
        .queues
        .chunk_by(|queue, next| queue.link == next.link)
        .map(|levels| after.link_work(levels[0].link, None));
    let mut causes = links.map(|link| link.first_cause(1, &Slips::NONE));
    let frames = after.held().iter().all(|flow| flow.frame <= flow.burst);
    frames && causes.all(|cause| cause.is_none())
}

fn done_to(change: &Change, before: &Registry, index: usize) -> &'static str {
    let held = before.slots[index].as_ref();
    let rate = held.is_some_and(|flow| flow.rate != change.rate);
    let burst = held.is_some_and(|flow| flow.burst != change.burst);
    DONE_TO[usize::from(rate) + 2 * usize::from(burst)]
}
