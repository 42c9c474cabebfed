//! Document 01's plain book: the table's queues and a flow or none at each slot. All figures are worked out anew from the
//! flows each time they are asked for.

use crate::causes;
use crate::formula::Aggregate;
use crate::orders::{Change, Flow, Hop};
use crate::slips::Slips;
use crate::table::{read_table, Queue, Refusal};

/// What an answer line holds after the line number.
#[derive(Clone, Copy, Debug, PartialEq)]
pub struct Answer {
    pub code: u64,
    pub slot: u64,
    pub link: u64,
    pub level: u64,
}

impl Answer {
    pub fn plain(code: u64) -> Answer {
        let nowhere = Hop { link: 0, level: 0 };
        Answer::at_hop(code, nowhere)
    }

    pub fn at_hop(code: u64, hop: Hop) -> Answer {
        Answer {
            code,
            slot: 0,
            link: hop.link,
            level: hop.level,
        }
    }

    /// Done at the slot with this index.
    pub fn done(index: usize) -> Answer {
        Answer {
            slot: index as u64 + 1,
            ..Answer::plain(causes::DONE)
        }
    }
}

/// Document 01's places.
pub const SLOTS: usize = 256;
/// Document 01's hop entries, for all flows together.
pub const HOP_POOL: usize = 1_024;

/// A flow's share in a queue.
#[derive(Clone, Copy, Debug, PartialEq)]
pub struct Share {
    pub number: u64,
    pub share: Aggregate,
}

#[derive(Clone)]
pub struct Registry {
    pub queues: Vec<Queue>,
    pub slots: Vec<Option<Flow>>,
    /// The rules that are broken on purpose; none but for recognising a trainee's slip.
    pub slips: Slips,
    /// What slips left in queues beside the flows; nothing by the rules.
    pub(crate) residue: Vec<(Hop, Aggregate)>,
}

impl Registry {
    /// An empty registry; without queues where the table is refused.
    pub fn open(table: &[u8]) -> (Registry, Option<Refusal>) {
        match read_table(table) {
            Ok(queues) => (Registry::over(queues), None),
            Err(refusal) => (Registry::over(Vec::new()), Some(refusal)),
        }
    }

    pub fn over(queues: Vec<Queue>) -> Registry {
        Registry::slipping(queues, Slips::NONE)
    }

    /// An empty registry by rules of which some are broken.
    pub fn slipping(queues: Vec<Queue>, slips: Slips) -> Registry {
        Registry {
            queues,
            slots: vec![None; SLOTS],
            slips,
            residue: Vec::new(),
        }
    }

    /// The same flows by rules of which some are broken.
    pub fn by(&self, slips: Slips) -> Registry {
        Registry {
            slips,
            ..self.clone()
        }
    }

    /// A flow in the lowest free slot, unjudged; nothing where there is none.
    pub fn put_in(&mut self, flow: &Flow) {
        if let Some(free) = self.slots.iter_mut().find(|slot| slot.is_none()) {
            *free = Some(flow.clone());
        }
    }

    /// The flow with this number out of its slot; nothing where it isn't held.
    pub fn take_out(&mut self, number: u64) {
        let held = self.holder(number);
        let Some(flow) = held.and_then(|index| self.slots[index].take()) else {
            return;
        };
        if self.slips.frame_left {
            let left = Aggregate {
                frame: u128::from(flow.frame),
                ..Aggregate::default()
            };
            self.residue
                .extend(flow.hops.iter().map(|&hop| (hop, left)));
        }
    }

    /// The held flow with a change's number, so changed, and the slot where it stands; none where it isn't held.
    pub fn changed(&self, change: &Change) -> Option<(usize, Flow)> {
        let index = self.holder(change.number)?;
        let held = self.slots[index].clone()?;
        let changed = Flow {
            rate: change.rate,
            burst: change.burst,
            ..held
        };
        Some((index, changed))
    }

    /// The changed flow in its old slot; nothing where it isn't held.
    pub fn put_changed(&mut self, change: &Change) {
        let Some((index, flow)) = self.changed(change) else {
            return;
        };
        let held = self.slots[index].replace(flow);
        if let Some(old) = held.filter(|_| self.slips.share_left) {
            let left = self.hops_work(&old).into_iter();
            self.residue.extend(left.map(|hop| (hop.hop, hop.share)));
        }
    }

    /// The same without the flow of this slot.
    pub fn without(&self, index: usize) -> Registry {
        let mut others = self.clone();
        others.slots[index] = None;
        others
    }

    pub fn holder(&self, number: u64) -> Option<usize> {
        self.slots
            .iter()
            .position(|slot| slot.as_ref().is_some_and(|flow| flow.number == number))
    }

    pub fn held(&self) -> Vec<&Flow> {
        self.slots.iter().flatten().collect()
    }

    /// The figures of a queue of the table, by the flows alone.
    pub fn aggregate(&self, queue: &Queue) -> Aggregate {
        aggregate(&self.queues, &self.held(), queue)
    }

    /// What each held flow and, where one is given, a new one adds at a link, with the level it goes to.
    pub fn shares<'a>(
        &'a self,
        link: u64,
        new: Option<&'a Flow>,
    ) -> impl Iterator<Item = (u64, Share)> + 'a {
        let flows = self.slots.iter().flatten().chain(new);
        link_shares(&self.queues, flows, link, self.slips)
    }

    /// The figures of a link's levels, level 1 first, with, where one is given, a new flow counted in.
    pub fn figures(&self, link: u64, new: Option<&Flow>) -> Vec<(Queue, Aggregate)> {
        let of_link = self.queues.iter().filter(|queue| queue.link == link);
        let none = |queue: &Queue| (queue.clone(), Aggregate::default());
        let mut levels: Vec<(Queue, Aggregate)> = of_link.map(none).collect();
        let held = self
            .shares(link, new)
            .map(|(level, share)| (level, share.share));
        let left = self.residue.iter().filter(|(hop, _)| hop.link == link);
        for (level, share) in held.chain(left.map(|(hop, left)| (hop.level, *left))) {
            let own = levels.iter_mut().find(|(queue, _)| queue.level == level);
            if let Some((_, figures)) = own {
                *figures = figures.with(share);
            }
        }
        levels
    }
}

pub fn queue_at(queues: &[Queue], hop: Hop) -> Option<&Queue> {
    queues
        .iter()
        .find(|queue| queue.link == hop.link && queue.level == hop.level)
}

fn threshold_at(queues: &[Queue], hop: Hop) -> u64 {
    queue_at(queues, hop).map_or(0, |queue| queue.threshold)
}

pub fn fixed_delay_at(queues: &[Queue], hop: Hop) -> u64 {
    queue_at(queues, hop).map_or(0, |queue| queue.fixed_delay)
}

/// The sum of the thresholds of these hops, µs.
pub fn path_thresholds(queues: &[Queue], hops: &[Hop]) -> u128 {
    let threshold = |&hop: &Hop| u128::from(threshold_at(queues, hop));
    hops.iter().map(threshold).sum()
}

/// The sum of the fixed delays of these hops, µs.
pub fn path_fixed_delays(queues: &[Queue], hops: &[Hop]) -> u128 {
    let fixed_delay = |&hop: &Hop| u128::from(fixed_delay_at(queues, hop));
    hops.iter().map(fixed_delay).sum()
}

/// A hop's part of S for the hops after it, µs.
pub fn growth_at(queues: &[Queue], hop: Hop, slips: &Slips) -> u128 {
    queue_at(queues, hop).map_or(0, |queue| {
        slips.hop_growth(u128::from(queue.threshold), u128::from(queue.speed))
    })
}

/// What a flow adds at the hop with this index.
pub fn share_at(queues: &[Queue], flow: &Flow, index: usize, slips: &Slips) -> Aggregate {
    let earlier = flow.hops[..index].iter();
    let parts = earlier.map(|&hop| growth_at(queues, hop, slips));
    let (burst, rate) = (u128::from(flow.burst), u128::from(flow.rate));
    Aggregate {
        rate,
        burst: slips.burst(burst, rate, parts),
        frame: u128::from(flow.frame),
    }
}

/// What each of these flows adds at a link, for every hop it has there, with the hop's level.
fn link_shares<'a>(
    queues: &'a [Queue],
    flows: impl Iterator<Item = &'a Flow> + 'a,
    link: u64,
    slips: Slips,
) -> impl Iterator<Item = (u64, Share)> + 'a {
    flows.flat_map(move |flow| {
        let hops = flow.hops.iter().enumerate();
        let here = hops.filter(move |(_, hop)| hop.link == link);
        here.map(move |(index, hop)| {
            let share = Share {
                number: flow.number,
                share: share_at(queues, flow, index, &slips),
            };
            (hop.level, share)
        })
    })
}

/// The figures of a queue over these flows.
pub fn aggregate(queues: &[Queue], flows: &[&Flow], queue: &Queue) -> Aggregate {
    aggregate_by(queues, flows, queue, Slips::NONE)
}

/// The same by rules of which some are broken.
pub fn aggregate_by(queues: &[Queue], flows: &[&Flow], queue: &Queue, slips: Slips) -> Aggregate {
    let flows = flows.iter().copied();
    let shares = link_shares(queues, flows, queue.link, slips);
    let own = shares.filter(|(level, _)| *level == queue.level);
    own.fold(Aggregate::default(), |sum, (_, share)| {
        sum.with(share.share)
    })
}
