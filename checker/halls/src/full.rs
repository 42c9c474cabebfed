//! Batches that fill the slots or the hop pool.

use crate::orders::{flow, order_lines, walk, Demand, Mix, SMALL, WIDE};
use crate::rng::Rng;
use crate::tables::{full_ring, link_fields, loose, Shape, MOST_BUFFER, MOST_THRESHOLD};
use plain::orders::{write_registration, Flow, Hop};
use plain::table::Queue;

/// A registration over these hops with the greatest deadline.
fn unhurried(
    rng: &mut Rng,
    queues: &[Queue],
    demand: Demand,
    number: u64,
    hops: Vec<Hop>,
) -> Vec<u8> {
    write_registration(&Flow {
        number,
        hops,
        deadline: 10_000_000,
        ..flow(rng, queues, demand)
    })
}

/// More flows than there are slots, and releases once they are full. Four hops each fill the hop
/// pool as well.
pub fn full_slots(rng: &mut Rng) -> (Vec<Queue>, Vec<Vec<u8>>) {
    let mut queues = full_ring(10_000, MOST_THRESHOLD, MOST_BUFFER);
    link_fields(rng, &mut queues);
    let hops = if rng.once_in(2) { 4 } else { rng.between(1, 3) };
    let mut lines = Vec::new();
    for number in 1..=rng.between(256, 300) {
        let hops = walk(rng, &queues, hops as usize);
        lines.push(unhurried(rng, &queues, SMALL, number, hops));
    }
    let reused = Demand {
        numbers: 320,
        ..rng.pick(&[SMALL, WIDE])
    };
    let mix = Mix {
        releases: 3,
        changes: 2,
        odd: 2,
    };
    lines.extend(order_lines(rng, &queues, reused, mix, 60));
    (queues, lines)
}

/// Long paths until the hop pool is full, then releases and paths of every length.
pub fn full_hops(rng: &mut Rng) -> (Vec<Queue>, Vec<Vec<u8>>) {
    let links = rng.between(12, 16);
    let mut queues = loose(rng, Shape::Chain, links, 2, &[10_000]);
    link_fields(rng, &mut queues);
    let demand = Demand {
        rates: &[1],
        bursts: &[84, 90],
        most_hops: 12,
        numbers: 65_535,
    };
    let mut lines = Vec::new();
    for number in 1..=rng.between(84, 88) {
        let start = rng.between(1, links - 11);
        let hops = chain_path(rng, &queues, start, 12);
        lines.push(unhurried(rng, &queues, demand, number, hops));
    }
    let reused = Demand {
        numbers: 100,
        ..demand
    };
    let mix = Mix {
        releases: 3,
        changes: 2,
        odd: 1,
    };
    lines.extend(order_lines(rng, &queues, reused, mix, 40));
    (queues, lines)
}

/// The path over so many links of a chain, at random levels.
fn chain_path(rng: &mut Rng, queues: &[Queue], start: u64, count: u64) -> Vec<Hop> {
    let mut hops = Vec::new();
    for link in start..start + count {
        let levels: Vec<&Queue> = queues.iter().filter(|queue| queue.link == link).collect();
        let level = levels[rng.index(levels.len())].level;
        hops.push(Hop { link, level });
    }
    hops
}
