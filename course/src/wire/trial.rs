//! The noise of the idle links, then round after round: what was seen of each queue.

use super::noise::{self, Probe};
use super::plan::Plan;
use super::roads::Road;
use super::run::{round, Sender, Way, Wires};
use super::scale::{Nanos, Scale};
use super::source::Source;
use super::verdict::{Limit, Seen};
use crate::traffic::hall::Hall;
use crate::traffic::network::Network;

/// A flow that breaks its bucket, by so many largest frames at once with its burst.
#[derive(Clone, Copy, Debug, PartialEq)]
pub struct Break {
    /// Its index among the held flows.
    pub flow: usize,
    pub count: u64,
}

pub struct Trial<'a> {
    pub hall: &'a Hall,
    pub network: &'a Network,
    pub roads: &'a [Road],
    pub scale: Scale,
    pub broken: Option<Break>,
}

/// The machine needs a while before the first source sends.
const SOON: Nanos = 5_000_000;

const NO_LIMIT: Limit = Limit {
    threshold: 0,
    early: 0,
    noise: 0,
    speed: 1,
    residual: 1,
};

/// What a trial showed, by queue.
pub struct Found {
    pub limits: Vec<Limit>,
    pub seen: Vec<Seen>,
}

impl Trial<'_> {
    /// Measures the noise, then sends round after round; `begin` is told which.
    pub fn run<W: Wires>(
        &self,
        wires: &mut W,
        plans: &[Plan],
        mut begin: impl FnMut(usize),
    ) -> Result<Found, String> {
        let mut names = 0;
        let limits = self.limits(wires, &mut names)?;
        let mut seen = vec![Seen::default(); limits.len()];
        for (index, plan) in plans.iter().enumerate() {
            begin(index);
            let senders = self.senders(plan, wires.now() + SOON);
            for stay in round(wires, self.way(&limits), senders, &mut names)? {
                seen[stay.queue].note(&stay, limits[stay.queue].threshold);
            }
        }
        Ok(Found { limits, seen })
    }

    fn way<'a>(&'a self, limits: &'a [Limit]) -> Way<'a> {
        Way {
            network: self.network,
            scale: self.scale,
            limits,
        }
    }

    /// What stays are held against, with the noise of the idle links.
    fn limits<W: Wires>(&self, wires: &mut W, names: &mut u32) -> Result<Vec<Limit>, String> {
        // A queue of a link that no flow crosses has no stay.
        let mut limits = vec![NO_LIMIT; self.hall.queues.len()];
        for road in self.roads {
            let of_road = road.limits(self.hall, self.scale);
            limits[road.queues.clone()].copy_from_slice(&of_road);
        }
        let probes = self.roads.iter().map(|road| road.probe(self.hall));
        let probes: Vec<Probe> = probes.collect();
        let noise = noise::measure(wires, self.way(&limits), &probes, names)?;
        for (queue, limit) in limits.iter_mut().enumerate() {
            limit.noise = noise[self.network.sender_of[queue]];
        }
        Ok(limits)
    }

    fn senders(&self, plan: &Plan, now: Nanos) -> Vec<Sender> {
        let sender = |index: usize| {
            let start = plan.starts[index];
            let from = now + self.scale.nanos(start.at);
            let until = now + self.scale.nanos(plan.end);
            let source = Source::new(&self.hall.flows[index], self.scale, from, until);
            let broken = self.broken.filter(|broken| broken.flow == index);
            Sender {
                source: source.breaking(broken.map_or(0, |broken| broken.count)),
                route: self.network.routes[index].clone(),
                turn: start.turn,
            }
        };
        (0..self.hall.flows.len()).map(sender).collect()
    }
}
