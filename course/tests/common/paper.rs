//! A queue's figures by the papers' words, written apart from the plain version.

use plain::formula::Aggregate;
use plain::orders::{Flow, Hop};
use plain::table::Queue;

/// A flow's burst at the hop with this index. Each hop before adds its threshold less the time in which its own link sends
/// 672 bits; the sum is rounded once.
fn burst(queues: &[Queue], flow: &Flow, index: usize) -> u128 {
    let part = |hop: &Hop| {
        let queue = queues.iter().find(|queue| queue.hop() == *hop);
        let queue = queue.expect("a queue of the table");
        queue
            .threshold
            .saturating_sub(672_u64.div_ceil(queue.speed))
    };
    let sum: u64 = flow.hops[..index].iter().map(part).sum();
    u128::from(flow.burst) + (u128::from(flow.rate) * u128::from(sum)).div_ceil(8_000)
}

/// The figures of a link's levels over these flows.
pub fn link_levels(queues: &[Queue], flows: &[&Flow], link: u64) -> Vec<Aggregate> {
    let of_link = queues.iter().filter(|queue| queue.link == link);
    let figures = |queue: &Queue| {
        let mut sum = Aggregate::default();
        for flow in flows {
            let here = flow.hops.iter().position(|hop| *hop == queue.hop());
            if let Some(index) = here {
                sum.rate += u128::from(flow.rate);
                sum.burst += burst(queues, flow, index);
                sum.frame = sum.frame.max(u128::from(flow.frame));
            }
        }
        sum
    };
    of_link.map(figures).collect()
}
