//! W-205: lists of registrations that are admitted whole, and parts of them, in one order after the other: the same answers,
//! figures, bounds and flows. Beside them lists with refusals, where another order may let in other flows, or more.

use crate::versions::{admitted_in_turn, versions, Batch};
use halls::input;
use halls::rng::Rng;
use plain::causes::DONE;
use plain::columns::Line;
use plain::formula::Aggregate;
use plain::orders::{read_order, write_registration, Flow, Order};
use plain::programs::begin;
use plain::registry::{aggregate, aggregate_by, Answer, Registry};
use plain::slips::{Growth, Slips};
use plain::table::Queue;
use plain::work::LinkWork;
use std::collections::BTreeSet;

/// How the figures of a queue are counted over flows in the order of their slots.
pub type Count = fn(&[Queue], &[&Flow], &Queue) -> Aggregate;

/// The mistake of a count that goes by the order: only the first flow's bursts grow.
pub fn only_the_first_grows(queues: &[Queue], flows: &[&Flow], queue: &Queue) -> Aggregate {
    let never = Slips {
        growth: Growth::Never,
        ..Slips::NONE
    };
    let (first, others) = flows.split_at(flows.len().min(1));
    let others = aggregate_by(queues, others, queue, never);
    aggregate(queues, first, queue).with(others)
}

/// What the orders of a list are judged by.
pub struct Judges {
    pub count: Count,
    pub batches: Vec<(&'static str, Batch)>,
}

impl Judges {
    pub fn right() -> Judges {
        Judges {
            count: aggregate,
            batches: versions(),
        }
    }
}

#[derive(Default)]
pub struct Report {
    /// Lists of two flows or more that were admitted whole, and parts of them.
    pub lists: u64,
    pub parts: u64,
    /// Lists of which something was refused; those of which another order lets in other flows, and more of them.
    pub refused: u64,
    pub others: u64,
    pub more: u64,
}

impl Report {
    /// Whether everything occurred.
    pub fn complete(&self) -> bool {
        [self.lists, self.parts, self.others, self.more]
            .iter()
            .all(|&times| times > 0)
    }

    pub fn print(&self) {
        println!(
            "admitted whole: {} lists and {} parts, each in {} orders, answered, counted and held alike",
            self.lists,
            self.parts,
            1 + ORDERS
        );
        println!(
            "with refusals: {} lists; another order lets in other flows of {}, more of {}",
            self.refused, self.others, self.more
        );
    }
}

/// The orders that are drawn of each list beside its own, and the parts of a list.
const ORDERS: usize = 3;
const PARTS: usize = 2;

/// So many halls; the first difference ends the run.
pub fn run(seed: u64, count: u64, judges: &Judges) -> Result<Report, String> {
    let mut report = Report::default();
    for index in 0..count {
        let mut rng = Rng::new(seed, index);
        let given = input(&mut rng, false);
        let Ok((registry, lines)) = begin(&given.table, &given.orders) else {
            continue;
        };
        let hall = Hall {
            table: &given.table,
            queues: &registry.queues,
            judges,
        };
        let held = held_after(registry.clone(), &lines);
        hall.whole_lists(&mut rng, held, &mut report)
            .and_then(|()| hall.refused_lists(&mut rng, set_of(&lines), &mut report))
            .map_err(|what| format!("seed {seed} hall {index}: {what}"))?;
    }
    Ok(report)
}

/// The flows that are held once these lines are done.
fn held_after(mut registry: Registry, lines: &[Line]) -> Vec<Flow> {
    for line in lines {
        registry.step(read_order(line));
    }
    registry.held().into_iter().cloned().collect()
}

/// The flows that these lines register, one to a number.
fn set_of(lines: &[Line]) -> Vec<Flow> {
    let mut numbers = BTreeSet::new();
    let mut flows = Vec::new();
    for line in lines {
        if let Ok(Order::Register(flow)) = read_order(line) {
            if numbers.insert(flow.number) {
                flows.push(flow);
            }
        }
    }
    flows
}

/// What a list leaves, slots aside.
#[derive(PartialEq)]
struct Left {
    links: Vec<LinkWork>,
    /// By their numbers.
    flows: Vec<Flow>,
}

struct Hall<'a> {
    table: &'a [u8],
    queues: &'a [Queue],
    judges: &'a Judges,
}

impl Hall<'_> {
    fn whole_lists(
        &self,
        rng: &mut Rng,
        flows: Vec<Flow>,
        report: &mut Report,
    ) -> Result<(), String> {
        if flows.len() < 2 {
            return Ok(());
        }
        for _ in 0..PARTS {
            let part = flows.iter().filter(|_| !rng.once_in(3)).cloned().collect();
            self.alike(rng, part)?;
        }
        self.alike(rng, flows)?;
        report.lists += 1;
        report.parts += PARTS as u64;
        Ok(())
    }

    /// Whether a list is admitted whole in its own order and others, and leaves the same in each.
    fn alike(&self, rng: &mut Rng, mut flows: Vec<Flow>) -> Result<(), String> {
        let first = self.admitted(&flows)?;
        for _ in 0..ORDERS {
            rng.shuffle(&mut flows);
            let other = self.admitted(&flows)?;
            if other.links != first.links {
                return Err("another order of a list gives other figures".to_string());
            }
            if other.flows != first.flows {
                return Err("another order of a list holds other flows".to_string());
            }
        }
        Ok(())
    }

    /// What is left by a list whose lines are all answered 0, with slots as they come, by every version.
    fn admitted(&self, flows: &[Flow]) -> Result<Left, String> {
        let mut registry = Registry::over(self.queues.to_vec());
        for (index, flow) in flows.iter().enumerate() {
            let answer = registry.step(Ok(Order::Register(flow.clone())));
            if answer != Answer::done(index) {
                return Err(format!("plain: line {}: {answer:?}", index + 1));
            }
        }
        let orders: Vec<u8> = flows.iter().flat_map(write_registration).collect();
        admitted_in_turn(&self.judges.batches, self.table, &orders, flows.len())?;
        Ok(self.left(&registry))
    }

    fn left(&self, registry: &Registry) -> Left {
        let held = registry.held();
        let figures = |queue: &Queue| (self.judges.count)(self.queues, &held, queue);
        let counted = |queue: &Queue| (queue.clone(), figures(queue));
        let by_link = self.queues.chunk_by(|one, next| one.link == next.link);
        let link = |levels: &[Queue]| {
            let levels = levels.iter().map(counted).collect();
            LinkWork::of(levels, &Slips::NONE)
        };
        let links = by_link.map(link).collect();
        let mut flows: Vec<Flow> = held.into_iter().cloned().collect();
        flows.sort_by_key(|flow| flow.number);
        Left { links, flows }
    }

    /// Of a list with refusals no order lets in all. What isn't promised: another may let in others, or more.
    fn refused_lists(
        &self,
        rng: &mut Rng,
        mut flows: Vec<Flow>,
        report: &mut Report,
    ) -> Result<(), String> {
        let first = self.let_in(&flows);
        if first.len() == flows.len() {
            return Ok(());
        }
        let (mut others, mut more) = (false, false);
        for _ in 0..ORDERS {
            rng.shuffle(&mut flows);
            let other = self.let_in(&flows);
            if other.len() == flows.len() {
                return Err("another order of a list with refusals lets in all".to_string());
            }
            others |= other != first;
            more |= other.len() > first.len();
        }
        report.refused += 1;
        report.others += u64::from(others);
        report.more += u64::from(more);
        Ok(())
    }

    /// The numbers of the flows that a list lets in.
    fn let_in(&self, flows: &[Flow]) -> BTreeSet<u64> {
        let mut registry = Registry::over(self.queues.to_vec());
        let mut register = |flow: &&Flow| {
            let order = Order::Register((*flow).clone());
            registry.step(Ok(order)).code == DONE
        };
        let admitted = flows.iter().filter(|flow| register(flow));
        admitted.map(|flow| flow.number).collect()
    }
}
