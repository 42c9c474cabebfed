//! The comparison run: each version of the batch against the plain one, on the same areas, and
//! direct calls against the plain calls.

mod changes;
pub mod direct;

use crate::versions::versions;
use changes::{Changes, Watch};
use direct::{Counts, Made};
use halls::rng::Rng;
use halls::{input, Input, KINDS};
use plain::causes::{BACKLOG, DEADLINE, DELAY, DONE};
use plain::columns::{field, lines};
use plain::orders::{read_order, Flow, Order};
use plain::registry::{path_thresholds, Answer, Registry};
use plain::slips::{Growth, Slips};
use std::collections::BTreeMap;
use std::fmt::Display;

/// What every run must have met; only direct calls can meet 42.
pub const BATCH_CODES: [u64; 7] = [1, 2, 3, 4, 5, 40, 41];
pub const ORDER_CODES: [u64; 15] = [0, 10, 11, 12, 13, 14, 15, 16, 17, 20, 21, 22, 23, 30, 31];

pub struct Report {
    /// Refused batches.
    pub refused: Counts,
    /// Answer lines of batches that were done.
    pub answers: Counts,
    pub calls: Made,
    pub batches: u64,
    /// How often each kind of input occurred.
    pub kinds: BTreeMap<&'static str, u64>,
    /// Releases that were done.
    pub released: u64,
    pub changes: Changes,
    /// Registrations answered 20 whose thresholds alone meet the deadline.
    pub by_fixed_delay: u64,
    /// Registrations answered 22 or 23 that would be admitted on links without best-effort frames.
    pub by_best_effort: u64,
    /// Registrations answered 0 that whole thresholds in S would refuse.
    pub by_shorter_growth: u64,
}

impl Report {
    /// The codes that never occurred.
    pub fn missing(&self) -> Vec<u64> {
        let no_batch = BATCH_CODES
            .iter()
            .filter(|code| !self.refused.contains_key(code));
        let no_order = ORDER_CODES
            .iter()
            .filter(|code| !self.answers.contains_key(code));
        no_batch.chain(no_order).copied().collect()
    }

    /// The kinds of input that never occurred.
    pub fn missing_kinds(&self) -> Vec<String> {
        let kinds = KINDS.into_iter();
        let kinds = kinds.filter(|kind| !self.kinds.contains_key(kind));
        let counted = self.counted().into_iter();
        let never = counted.filter(|(_, times)| *times == 0);
        let mut missing: Vec<String> = kinds
            .chain(never.map(|(kind, _)| kind))
            .map(str::to_string)
            .collect();
        missing.extend(self.changes.missing());
        missing.extend(self.calls.missing());
        missing
    }

    /// What is counted beside kinds of input and codes.
    fn counted(&self) -> [(&'static str, u64); 4] {
        [
            ("releases done", self.released),
            ("20 by a fixed delay", self.by_fixed_delay),
            ("22 or 23 by a best-effort frame", self.by_best_effort),
            ("0 that whole thresholds refuse", self.by_shorter_growth),
        ]
    }

    pub fn print(&self) {
        let names: Vec<&str> = versions().iter().map(|(name, _)| *name).collect();
        println!(
            "batches: {}, plain against {}",
            self.batches,
            names.join(", ")
        );
        print_counts("inputs", &self.kinds);
        for (kind, times) in self.counted() {
            println!("{kind}: {times}");
        }
        print_counts("refused batches", &self.refused);
        print_counts("answer lines", &self.answers);
        print_counts("answers to changes", &self.changes.answers);
        print_counts("changes", &self.changes.kinds);
        print_counts("direct calls", &self.calls.answers);
        print_counts("direct calls to change", &self.calls.changes);
    }
}

fn print_counts<K: Display>(title: &str, counts: &BTreeMap<K, u64>) {
    let shown: Vec<String> = counts
        .iter()
        .map(|(key, times)| format!("{key}: {times}"))
        .collect();
    println!("{title}: {}", shown.join(", "));
}

/// Runs so many inputs; the first difference ends the run.
pub fn run(seed: u64, count: u64, long: bool) -> Result<Report, String> {
    let mut report = Report {
        refused: Counts::new(),
        answers: Counts::new(),
        calls: Made::default(),
        batches: 0,
        kinds: BTreeMap::new(),
        released: 0,
        changes: Changes::default(),
        by_fixed_delay: 0,
        by_best_effort: 0,
        by_shorter_growth: 0,
    };
    for index in 0..count {
        let mut rng = Rng::new(seed, index);
        let given = input(&mut rng, long);
        one_batch(&given, &mut report)
            .map_err(|what| format!("seed {seed} input {index}: {what}"))?;
        direct::one_list(&mut rng, &given, &mut report.calls)
            .map_err(|what| format!("seed {seed} calls {index}: {what}"))?;
    }
    Ok(report)
}

/// A pattern in the answer area, so that a byte written shows.
fn area(length: usize) -> Vec<u8> {
    (0..length).map(|at| (at % 251) as u8 ^ 0xa5).collect()
}

fn one_batch(given: &Input, report: &mut Report) -> Result<(), String> {
    let mut expected = area(given.area);
    let (code, line) = plain::programs::batch(&given.table, &given.orders, &mut expected);
    if code != 0 && expected != area(given.area) {
        return Err(format!(
            "plain: refused with {code}, but the area was written"
        ));
    }
    for (name, batch) in versions() {
        let mut answers = area(given.area);
        let outcome = batch(&given.table, &given.orders, &mut answers);
        if outcome != (code as u32, line as u32) {
            return Err(format!("{name}: {outcome:?}, plain: ({code}, {line})"));
        }
        if let Some(at) = (0..given.area).find(|&at| answers[at] != expected[at]) {
            return Err(format!("{name}: answer line {} differs", at / 20 + 1));
        }
    }
    report.batches += 1;
    for kind in given.kinds {
        *report.kinds.entry(kind).or_default() += 1;
    }
    if code != 0 {
        *report.refused.entry(code).or_default() += 1;
        return Ok(());
    }
    count_answers(given, &expected, report)
}

/// Counts the answers of a batch that was done. The registry follows them without judging again.
fn count_answers(given: &Input, answers: &[u8], report: &mut Report) -> Result<(), String> {
    let (mut registry, _) = Registry::open(&given.table);
    let mut watch = Watch::new(&mut report.changes);
    for (text, line) in answers.chunks_exact(20).zip(lines(&given.orders)) {
        let Some(answer) = answer_of(text) else {
            return Err("plain: an answer with a number missing".to_string());
        };
        *report.answers.entry(answer.code).or_default() += 1;
        let order = read_order(&line);
        watch.add(&line, &order, &answer, &registry)?;
        let Ok(order) = order else { continue };
        match (&order, answer.code) {
            (Order::Release(_), DONE) => report.released += 1,
            (Order::Register(flow), DONE) => {
                report.by_shorter_growth += u64::from(refused_by_thresholds(&mut registry, flow));
            }
            (Order::Register(flow), DEADLINE) => {
                let thresholds = path_thresholds(&registry.queues, &flow.hops);
                report.by_fixed_delay += u64::from(thresholds <= u128::from(flow.deadline));
            }
            (Order::Register(flow), DELAY | BACKLOG) => {
                report.by_best_effort += u64::from(admitted_alone(&registry, flow));
            }
            _ => {}
        }
        registry.carry_out(&order, &answer);
    }
    Ok(())
}

/// What an answer line holds after the line number.
fn answer_of(line: &[u8]) -> Option<Answer> {
    Some(Answer {
        code: field(line, 7, 9)?,
        slot: field(line, 10, 13)?,
        link: field(line, 14, 17)?,
        level: field(line, 18, 19)?,
    })
}

/// Whether a flow would be refused if whole thresholds counted in S.
fn refused_by_thresholds(registry: &mut Registry, flow: &Flow) -> bool {
    registry.slips.growth = Growth::WholeThresholds;
    let refused = registry.judge(flow).refused.is_some();
    registry.slips = Slips::NONE;
    refused
}

/// Whether a flow would be admitted on links without best-effort frames.
fn admitted_alone(registry: &Registry, flow: &Flow) -> bool {
    let mut alone = registry.clone();
    for queue in &mut alone.queues {
        queue.best_effort_frame = 0;
    }
    alone.judge(flow).refused.is_none()
}
