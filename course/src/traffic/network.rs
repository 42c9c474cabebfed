//! What the run needs of a hall: each link's speed and queues, each flow's route over them.

use plain::orders::Flow;
use plain::table::Queue;
use std::ops::Range;

/// A link's sender; its queues are consecutive, level 1 first.
pub struct Sender {
    /// Bits per µs.
    pub speed: u64,
    /// µs that its cable takes.
    pub fixed_delay: u64,
    pub queues: Range<usize>,
}

pub struct Network {
    pub senders: Vec<Sender>,
    /// The sender of each queue.
    pub sender_of: Vec<usize>,
    /// Each flow's path as indices of queues.
    pub routes: Vec<Vec<usize>>,
}

impl Network {
    /// The flows' hops are queues of the table: no other flow is admitted.
    pub fn new(queues: &[Queue], flows: &[Flow]) -> Network {
        let mut senders: Vec<Sender> = Vec::new();
        let mut sender_of = Vec::new();
        for (index, queue) in queues.iter().enumerate() {
            if queue.level == 1 {
                senders.push(Sender {
                    speed: queue.speed,
                    fixed_delay: queue.fixed_delay,
                    queues: index..index,
                });
            }
            let of_link = senders.len() - 1;
            senders[of_link].queues.end = index + 1;
            sender_of.push(of_link);
        }
        let routes = flows.iter().map(|flow| route(queues, flow)).collect();
        Network {
            senders,
            sender_of,
            routes,
        }
    }

    /// Bits per µs of a link.
    pub fn speed(&self, link: usize) -> u64 {
        self.senders[link].speed
    }
}

fn route(queues: &[Queue], flow: &Flow) -> Vec<usize> {
    let index_of = |link, level| {
        queues
            .iter()
            .position(|queue| queue.link == link && queue.level == level)
            .expect("a held flow's hops are queues of the table")
    };
    flow.hops
        .iter()
        .map(|hop| index_of(hop.link, hop.level))
        .collect()
}
