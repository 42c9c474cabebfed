//! A registration or a change judged, with all that is worked out on the way: the sums on paper, up to the first cause.

use crate::causes;
use crate::formula::{rate_limit, rate_sum, Aggregate, Sums};
use crate::orders::{Change, Flow, Hop};
use crate::registry::{growth_at, queue_at, share_at};
use crate::registry::{Answer, Registry, HOP_POOL, SLOTS};
use crate::slips::Slips;
use crate::table::Queue;

/// A level of a link with its figures; bounds where it carries a flow and the rate rule holds.
#[derive(Clone, Debug, PartialEq)]
pub struct LevelWork {
    pub queue: Queue,
    pub figures: Aggregate,
    pub bounds: Option<Bounds>,
}

/// A queue's bounds and the sums that they come from.
#[derive(Clone, Copy, Debug, PartialEq)]
pub struct Bounds {
    pub sums: Sums,
    /// µs.
    pub delay: u128,
    /// Bytes.
    pub backlog: u128,
}

/// A link's rate rule and its levels.
#[derive(Clone, Debug, PartialEq)]
pub struct LinkWork {
    pub link: u64,
    pub rate_sum: u128,
    pub rate_limit: u128,
    pub levels: Vec<LevelWork>,
}

/// What a flow adds at one hop of its path.
#[derive(Clone, Debug, PartialEq)]
pub struct HopWork {
    pub hop: Hop,
    /// Its numbers are 0 where there is none.
    pub queue: Queue,
    /// S: the parts of the earlier hops, summed.
    pub earlier: u128,
    /// Its own part of S for the hops after it.
    pub growth: u128,
    pub share: Aggregate,
}

/// What was worked out for a registration or a change that was read.
#[derive(Clone, Debug, Default)]
pub struct Work {
    /// The first cause against it.
    pub refused: Option<Answer>,
    /// Along the path; empty where an earlier cause than 20 is met, and for a change than 21.
    pub hops: Vec<HopWork>,
    /// Held slots and held hop entries before it.
    pub held: (usize, usize),
    /// Along the path, the refusing link the last; empty where an earlier cause is met.
    pub links: Vec<LinkWork>,
}

impl Work {
    /// The thresholds along the path, summed.
    pub fn thresholds(&self) -> u128 {
        let thresholds = self.hops.iter().map(|hop| u128::from(hop.queue.threshold));
        thresholds.sum()
    }

    /// The fixed delays along the path, summed.
    pub fn fixed_delays(&self) -> u128 {
        let delays = self
            .hops
            .iter()
            .map(|hop| u128::from(hop.queue.fixed_delay));
        delays.sum()
    }

    /// What is held against the deadline.
    pub fn end_to_end(&self) -> u128 {
        self.thresholds() + self.fixed_delays()
    }

    /// The queue that decides, with its bounds: the failing one for 22 and 23, for an admission the flow's own at the last
    /// hop.
    pub fn deciding(&self) -> Option<&LevelWork> {
        let at = match self.refused {
            None => self.hops.last()?.hop,
            Some(answer) => Hop {
                link: answer.link,
                level: answer.level,
            },
        };
        let level = |level: &&LevelWork| level.queue.hop() == at && level.bounds.is_some();
        let link = self.links.iter().find(|link| link.link == at.link)?;
        link.levels.iter().find(level)
    }
}

impl LinkWork {
    /// A link's levels with these figures. A slip may take another frame for what blocks, or round a bound.
    pub fn of(levels: Vec<(Queue, Aggregate)>, slips: &Slips) -> LinkWork {
        let figures: Vec<Aggregate> = levels.iter().map(|(_, figures)| *figures).collect();
        let (number, link) = levels
            .first()
            .map_or_else(Default::default, |(queue, _)| (queue.link, queue.of_link()));
        let (sum, limit) = (rate_sum(&figures), rate_limit(link.speed));
        let bounds = |p: usize| {
            if figures[p].is_empty() || sum >= limit {
                return None;
            }
            let sums = slips.sums(Sums::of(link, &figures, p));
            Some(Bounds {
                sums,
                delay: slips.delay(&sums),
                backlog: figures[p].burst + sums.rise().ceiling(),
            })
        };
        let level = |(p, (queue, figures)): (usize, (Queue, Aggregate))| LevelWork {
            queue,
            figures,
            bounds: bounds(p),
        };
        LinkWork {
            link: number,
            rate_sum: sum,
            rate_limit: limit,
            levels: levels.into_iter().enumerate().map(level).collect(),
        }
    }

    /// The first of 21, 22 and 23 that a new flow at level `own` meets here; an empty level isn't checked.
    pub fn first_cause(&self, own: u64, slips: &Slips) -> Option<Answer> {
        if self.rate_sum >= self.rate_limit {
            let whole = Hop {
                link: self.link,
                level: 0,
            };
            return Some(Answer::at_hop(causes::RATE, whole));
        }
        for level in &self.levels {
            let Some(bounds) = &level.bounds else {
                continue;
            };
            let queue = &level.queue;
            if !slips.checks(queue.level, own) {
                continue;
            }
            let failing = queue.hop();
            if bounds.delay > u128::from(queue.threshold) {
                return Some(Answer::at_hop(causes::DELAY, failing));
            }
            if bounds.backlog > u128::from(queue.buffer) {
                return Some(Answer::at_hop(causes::BACKLOG, failing));
            }
        }
        None
    }
}

/// The first of 14, 16 and 15 of this code, first hop first.
fn path_cause(queues: &[Queue], hops: &[Hop], code: u64) -> Option<Answer> {
    let meets = |i: usize| match code {
        causes::NO_QUEUE => queue_at(queues, hops[i]).is_none(),
        causes::LOOP => hops[..i].iter().any(|earlier| earlier.link == hops[i].link),
        _ => {
            let ended = |hop| queue_at(queues, hop).map(|queue| queue.to);
            let starts = |hop| queue_at(queues, hop).map(|queue| queue.from);
            i > 0 && ended(hops[i - 1]) != starts(hops[i])
        }
    };
    let at = (0..hops.len()).find(|&i| meets(i))?;
    Some(Answer::at_hop(code, hops[at]))
}

impl Registry {
    /// Judges a registration whose line is well-formed and in range: cause after cause, in document 01's order.
    pub fn judge(&self, flow: &Flow) -> Work {
        self.judge_by(&causes::REGISTRATION, flow)
    }

    /// Judges a change whose line is well-formed and in range: the flow with its new rate and burst beside the others, so that
    /// its new share stands in place of the old. 20, 30 and 31 can't turn: path, deadline and places stay.
    pub fn judge_change(&self, change: &Change) -> Work {
        let [not_held, later @ ..] = &causes::CHANGE;
        match self.changed(change) {
            Some((_, flow)) if self.slips.share_left => self.judge_by(later, &flow),
            Some((index, flow)) => self.without(index).judge_by(later, &flow),
            None => Work {
                refused: Some(Answer::plain(not_held[0])),
                ..Work::default()
            },
        }
    }

    /// The first of these causes that a flow meets beside those held.
    fn judge_by(&self, groups: &[&[u64]], flow: &Flow) -> Work {
        let held = self.held();
        let mut work = Work {
            held: (held.len(), held.iter().map(|flow| flow.hops.len()).sum()),
            ..Work::default()
        };
        for group in groups {
            work.refused = self.cause(group[0], flow, &mut work);
            if work.refused.is_some() {
                break;
            }
        }
        work
    }

    fn cause(&self, code: u64, flow: &Flow, work: &mut Work) -> Option<Answer> {
        let met = match code {
            causes::HELD => self.holder(flow.number).is_some(),
            causes::FRAME => flow.frame > flow.burst,
            causes::NO_QUEUE | causes::LOOP | causes::APART => {
                return path_cause(&self.queues, &flow.hops, code);
            }
            causes::DEADLINE => {
                work.hops = self.hops_work(flow);
                work.end_to_end() > u128::from(flow.deadline)
            }
            causes::NO_SLOT => work.held.0 == SLOTS,
            causes::NO_HOPS => work.held.1 + flow.hops.len() > HOP_POOL,
            _ => return self.links_cause(flow, work),
        };
        met.then(|| Answer::plain(code))
    }

    /// What a flow adds at each hop of its path.
    pub fn hops_work(&self, flow: &Flow) -> Vec<HopWork> {
        let (queues, slips) = (&self.queues, &self.slips);
        let growth = |&hop: &Hop| growth_at(queues, hop, slips);
        let hop = |(index, hop): (usize, &Hop)| HopWork {
            hop: *hop,
            queue: queue_at(queues, *hop).cloned().unwrap_or_default(),
            earlier: flow.hops[..index].iter().map(growth).sum(),
            growth: growth(hop),
            share: share_at(queues, flow, index, slips),
        };
        flow.hops.iter().enumerate().map(hop).collect()
    }

    fn links_cause(&self, flow: &Flow, work: &mut Work) -> Option<Answer> {
        if work.hops.is_empty() {
            work.hops = self.hops_work(flow);
        }
        for hop in &flow.hops {
            let link = self.link_work(hop.link, Some(flow));
            let refused = link.first_cause(hop.level, &self.slips);
            work.links.push(link);
            if refused.is_some() {
                return refused;
            }
        }
        None
    }

    /// A link of the table over the held flows and, where one is given, a new one.
    pub fn link_work(&self, link: u64, new: Option<&Flow>) -> LinkWork {
        let levels = self.figures(link, new);
        LinkWork::of(levels, &self.slips)
    }
}
