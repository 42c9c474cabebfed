//! The fast registry, as the runs see and damage it.

use super::{near, near_frame, Version, View};
use crate::fast;
use crate::versions::FAST;
use halls::rng::Rng;
use plain::formula::Aggregate;
use plain::orders::{Flow, Hop};
use plain::table::Queue;

impl Version for fast::Registry {
    const NAME: &'static str = FAST;

    fn consistent(&self) -> bool {
        self.consistent()
    }

    fn view(&self) -> View {
        view(self)
    }

    fn damage(&mut self, rng: &mut Rng) {
        damage(rng, self);
        index(self);
    }
}

fn view(registry: &fast::Registry) -> View {
    let mut queues = Vec::new();
    let mut stored = Vec::new();
    for link in 0..registry.links as usize {
        for level in 0..registry.levels[link] as usize {
            queues.push(Queue {
                link: link as u64 + 1,
                from: u64::from(registry.from[link]),
                to: u64::from(registry.to[link]),
                speed: u64::from(registry.speed[link]),
                level: level as u64 + 1,
                threshold: u64::from(registry.threshold[link][level]),
                buffer: u64::from(registry.buffer[link][level]),
                fixed_delay: u64::from(registry.fixed_delay[link]),
                best_effort_frame: u64::from(registry.best_effort_frame[link]),
            });
            stored.push(Aggregate {
                rate: u128::from(registry.rate[link][level]),
                burst: u128::from(registry.burst[link][level]),
                frame: u128::from(registry.frame[link][level]),
            });
        }
    }
    let slots = (0..fast::SLOTS)
        .map(|slot| flow_at(registry, slot))
        .collect();
    View {
        queues,
        slots,
        stored,
        placed: true,
    }
}

fn flow_at(registry: &fast::Registry, slot: usize) -> Option<Flow> {
    let held = &registry.held[slot];
    let hop = |&(link, level): &(u8, u8)| Hop {
        link: u64::from(link) + 1,
        level: u64::from(level) + 1,
    };
    (registry.number[slot] != 0).then(|| Flow {
        number: u64::from(registry.number[slot]),
        rate: u64::from(held.rate),
        burst: u64::from(held.burst),
        frame: u64::from(held.frame),
        deadline: u64::from(held.deadline),
        hops: held
            .path
            .iter()
            .take(held.count as usize)
            .map(hop)
            .collect(),
    })
}

/// Sets what is found by flow number and by free slot right again: it is no part of the view.
fn index(registry: &mut fast::Registry) {
    for slot in 0..fast::SLOTS {
        let number = usize::from(registry.number[slot]);
        let (word, bit) = (slot / 64, 1 << (slot % 64));
        if number == 0 {
            registry.taken[word] &= !bit;
        } else {
            registry.taken[word] |= bit;
            registry.last[number] = slot as u8;
        }
    }
}

fn damage(rng: &mut Rng, registry: &mut fast::Registry) {
    let held: Vec<usize> = (0..fast::SLOTS)
        .filter(|&slot| registry.number[slot] != 0)
        .collect();
    if !held.is_empty() && rng.once_in(2) {
        let slot = rng.pick(&held);
        damage_flow(rng, registry, slot);
        return;
    }
    if registry.links == 0 {
        let slot = rng.index(fast::SLOTS);
        registry.number[slot] = rng.between(1, 65_535) as u16;
        return;
    }
    let link = rng.index(registry.links as usize);
    let level = rng.index(registry.levels[link] as usize);
    let value = match rng.between(0, 10) {
        0 => &mut registry.from[link],
        1 => &mut registry.to[link],
        2 => &mut registry.speed[link],
        3 => {
            registry.levels[link] = rng.between(1, 8) as u32;
            return;
        }
        4 => &mut registry.threshold[link][level],
        5 => &mut registry.buffer[link][level],
        6 => &mut registry.rate[link][level],
        7 => &mut registry.burst[link][level],
        8 => &mut registry.fixed_delay[link],
        9 => {
            let value = &mut registry.best_effort_frame[link];
            *value = near_frame(rng, *value);
            return;
        }
        _ => &mut registry.frame[link][level],
    };
    *value = near(rng, *value);
}

fn damage_flow(rng: &mut Rng, registry: &mut fast::Registry, slot: usize) {
    let other = registry.number[rng.index(fast::SLOTS)];
    let flow = &mut registry.held[slot];
    let hop = rng.index(fast::HOPS);
    let value = match rng.between(0, 8) {
        0 => {
            registry.number[slot] = other;
            return;
        }
        1 => {
            registry.number[slot] = rng.draw() as u16;
            return;
        }
        2 => {
            flow.path[hop].0 = rng.draw() as u8;
            return;
        }
        3 => {
            flow.path[hop].1 = rng.draw() as u8 % 12;
            return;
        }
        4 => &mut flow.rate,
        5 => &mut flow.burst,
        6 => &mut flow.frame,
        7 => &mut flow.deadline,
        _ => {
            flow.count = rng.between(0, 12) as u32;
            return;
        }
    };
    *value = near(rng, *value);
}
