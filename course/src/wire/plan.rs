//! What is sent: a round for each queue that carries a flow, in which the bursts meet there.

use super::scale::{Nanos, Scale};
use crate::traffic::hall::Hall;
use crate::traffic::network::Network;
use plain::orders::Flow;

/// Forwarded frames come a little before or after their time; so much is between those that are to come in turn, µs of real
/// time.
const LEAD: u64 = 200;

/// When a source begins.
#[derive(Clone, Copy, Debug, PartialEq)]
pub struct Start {
    /// µs of the hall since the round began.
    pub at: u64,
    /// Which of the sources of one moment goes first.
    pub turn: Turn,
}

/// At the queue that a round is about: a frame of a level below is to be under way, those of the levels above are to be there.
#[derive(Clone, Copy, Debug, PartialEq, Eq, PartialOrd, Ord)]
pub enum Turn {
    Below,
    Above,
    Own,
    Elsewhere,
}

/// One round.
#[derive(Clone, Debug, PartialEq)]
pub struct Plan {
    /// The queue that it is about.
    pub queue: usize,
    /// By flow.
    pub starts: Vec<Start>,
    /// When all sources end, µs of the hall since the round began.
    pub end: u64,
}

impl Plan {
    /// How long it takes at most where all sources conform.
    pub fn length(&self, hall: &Hall, network: &Network, scale: Scale) -> Nanos {
        scale.nanos(self.end + span(hall, network))
    }
}

/// The longest sum of delay bounds and fixed delays along a path, µs: by then all that the sources began with has arrived.
fn span(hall: &Hall, network: &Network) -> u64 {
    let over = |&hop: &usize| {
        let bound = hall.bounds[hop].map_or(0, |bounds| bounds.delay);
        bound + hall.queues[hop].fixed_delay
    };
    let along = |route: &Vec<usize>| route.iter().map(over).sum();
    network.routes.iter().map(along).max().unwrap_or(0)
}

/// A round for each queue that carries a flow.
pub fn plans(hall: &Hall, network: &Network, scale: Scale) -> Vec<Plan> {
    let carries = |&queue: &usize| hall.bounds[queue].is_some();
    let queues = (0..hall.queues.len()).filter(carries);
    queues
        .map(|queue| plan(hall, network, scale, queue))
        .collect()
}

/// Each source begins so much earlier as its first frame needs to come to this queue's link, sources that don't cross it when
/// the others meet there.
fn plan(hall: &Hall, network: &Network, scale: Scale, queue: usize) -> Plan {
    let link = &network.senders[network.sender_of[queue]].queues;
    let met = |route: &Vec<usize>| route.iter().position(|hop| link.contains(hop));
    let forwarded = network.routes.iter().any(|route| met(route) > Some(0));
    let lead = match forwarded {
        true => LEAD.div_ceil(scale.slow),
        false => 0,
    };
    let before = |(flow, route): (&Flow, &Vec<usize>)| {
        let Some(met) = met(route) else {
            return (Turn::Elsewhere, lead);
        };
        let turn = turn(route[met], queue);
        let ahead = match turn {
            Turn::Below => 2 * lead,
            Turn::Above | Turn::Elsewhere => lead,
            Turn::Own => 0,
        };
        (turn, travel(hall, flow, &route[..met]) + ahead)
    };
    let flows = hall.flows.iter().zip(&network.routes);
    let earlier: Vec<(Turn, u64)> = flows.map(before).collect();
    let meet = earlier.iter().map(|(_, before)| *before).max().unwrap_or(0);
    let start = |&(turn, before): &(Turn, u64)| Start {
        at: meet - before,
        turn,
    };
    Plan {
        queue,
        starts: earlier.iter().map(start).collect(),
        end: meet + 2 * span(hall, network),
    }
}

/// Of a flow in one of the link's queues, level 1's first, in a round about another.
fn turn(of_flow: usize, of_round: usize) -> Turn {
    use std::cmp::Ordering;
    match of_flow.cmp(&of_round) {
        Ordering::Greater => Turn::Below,
        Ordering::Less => Turn::Above,
        Ordering::Equal => Turn::Own,
    }
}

/// How long a flow's largest frame takes over these queues where it never waits, µs.
fn travel(hall: &Hall, flow: &Flow, route: &[usize]) -> u64 {
    let over = |&hop: &usize| {
        let queue = &hall.queues[hop];
        (8 * flow.frame).div_ceil(queue.speed) + queue.fixed_delay
    };
    route.iter().map(over).sum()
}
