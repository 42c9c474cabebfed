//! The proved registry's book in plain Rust, as the runs see and damage it.

use super::{near, near_frame, Version, View};
use crate::book::{Bits, Counted, Registry, Slot, Store, LEVELS, POOL, SLOTS};
use crate::versions::{BOOK, COUNTED};
use halls::rng::Rng;
use plain::formula::Aggregate;
use plain::orders::{Flow, Hop};
use plain::table::Queue;

/// What the runs ask of a store beside its flows.
pub trait Kept: Store {
    const NAME: &'static str;

    /// Whether it says that a held slot's entries start here; one that keeps no starts says nothing else.
    fn starts_at(&self, slot: usize, start: u64) -> bool;
    /// Changes a number that says where flows are, or one of a free slot.
    fn damage(&mut self, rng: &mut Rng);
}

impl Kept for Counted {
    const NAME: &'static str = COUNTED;

    fn starts_at(&self, _slot: usize, _start: u64) -> bool {
        true
    }

    fn damage(&mut self, rng: &mut Rng) {
        let slot = rng.index(SLOTS);
        if self.is_held(slot) || rng.once_in(2) {
            self.slots[slot].hops = rng.between(0, 13) as u32;
        } else {
            self.slots[slot] = Slot {
                hops: 0,
                ..junk(rng, self)
            };
        }
    }
}

impl Kept for Bits {
    const NAME: &'static str = BOOK;

    fn starts_at(&self, slot: usize, start: u64) -> bool {
        u64::from(self.starts[slot]) == start
    }

    fn damage(&mut self, rng: &mut Rng) {
        let slot = rng.index(SLOTS);
        match rng.between(0, 3) {
            0 => self.bits[slot / 64] ^= 1 << (slot % 64),
            1 => self.starts[slot] = near(rng, self.starts[slot]),
            _ if self.is_held(slot) => self.hops[slot] = rng.between(0, 13) as u32,
            _ => {
                // The one that is filled next as often as any.
                let slot = rng.pick(&[slot, self.first_free().unwrap_or(slot)]);
                self.set_flow(slot, junk(rng, self));
                self.starts[slot] = near(rng, self.starts[slot]);
            }
        }
    }
}

/// Numbers for a free slot: those of another one, some changed; flow 1 is the one that is called for.
fn junk(rng: &mut Rng, store: &impl Store) -> Slot {
    let other = store.flow(rng.index(SLOTS));
    Slot {
        number: rng.pick(&[1, other.number]),
        hops: near(rng, other.hops),
        ..other
    }
}

impl<S: Kept> Version for Registry<S> {
    const NAME: &'static str = S::NAME;

    fn consistent(&self) -> bool {
        self.consistent()
    }

    fn view(&self) -> View {
        let (queues, stored) = queues(self);
        let (slots, placed) = slots(&self.store);
        View {
            queues,
            slots,
            stored,
            placed,
        }
    }

    fn damage(&mut self, rng: &mut Rng) {
        let held: Vec<usize> = (0..SLOTS)
            .filter(|&slot| self.store.is_held(slot))
            .collect();
        match rng.between(0, 3) {
            0 | 1 if !held.is_empty() => damage_flow(rng, &mut self.store, &held),
            2 if self.table.count != 0 => damage_link(rng, self),
            _ => self.store.damage(rng),
        }
    }
}

fn queues<S>(registry: &Registry<S>) -> (Vec<Queue>, Vec<Aggregate>) {
    let mut queues = Vec::new();
    let mut stored = Vec::new();
    for (index, link) in registry.table.links[..registry.table.count]
        .iter()
        .enumerate()
    {
        for level in 0..link.levels as usize {
            let queue = &registry.table.queues[LEVELS * index + level];
            let sums = &registry.sums[LEVELS * index + level];
            queues.push(Queue {
                link: index as u64 + 1,
                from: u64::from(link.from),
                to: u64::from(link.to),
                speed: u64::from(link.speed),
                level: level as u64 + 1,
                threshold: u64::from(queue.threshold),
                buffer: u64::from(queue.buffer),
                fixed_delay: u64::from(link.fixed_delay),
                best_effort_frame: u64::from(link.best_effort_frame),
            });
            stored.push(Aggregate {
                rate: u128::from(sums.rate),
                burst: u128::from(sums.burst),
                frame: u128::from(sums.frame),
            });
        }
    }
    (queues, stored)
}

/// The flow or none at each slot, and whether each flow's entries are where they belong: after those of the flows before it.
/// Hops that the pool has no room for are on link 0, which none is.
fn slots<S: Kept>(store: &S) -> (Vec<Option<Flow>>, bool) {
    let hop = |entry: Option<&u32>| match entry {
        None => Hop { link: 0, level: 0 },
        Some(&entry) => Hop {
            link: u64::from(entry) / 8 + 1,
            level: u64::from(entry) % 8 + 1,
        },
    };
    let (mut start, mut placed) = (0, true);
    let flow = |index: usize| {
        if !store.is_held(index) {
            return None;
        }
        let slot = store.flow(index);
        placed &= store.starts_at(index, start as u64);
        let end = start + slot.hops as usize;
        let hops = (start..end).map(|at| hop(store.pool().get(at)));
        start = end;
        Some(Flow {
            number: u64::from(slot.number),
            rate: u64::from(slot.rate),
            burst: u64::from(slot.burst),
            frame: u64::from(slot.frame),
            deadline: u64::from(slot.deadline),
            hops: hops.collect(),
        })
    };
    ((0..SLOTS).map(flow).collect(), placed)
}

fn damage_flow<S: Store>(rng: &mut Rng, store: &mut S, held: &[usize]) {
    let other = store.flow(rng.index(SLOTS)).number;
    let entry = rng.index(store.held_entries().clamp(1, POOL));
    let slot = rng.pick(held);
    let mut flow = store.flow(slot);
    let value = match rng.between(0, 8) {
        0 => {
            flow.number = other;
            return store.set_flow(slot, flow);
        }
        1 => &mut flow.number,
        2 => {
            store.pool_mut()[entry] = rng.between(0, 600) as u32;
            return;
        }
        3 => &mut store.pool_mut()[entry],
        4 => &mut flow.rate,
        5 => &mut flow.burst,
        6 => &mut flow.frame,
        7 => &mut flow.deadline,
        _ => {
            flow.hops = rng.between(0, 13) as u32;
            return store.set_flow(slot, flow);
        }
    };
    *value = near(rng, *value);
    store.set_flow(slot, flow);
}

fn damage_link<S>(rng: &mut Rng, registry: &mut Registry<S>) {
    let index = rng.index(registry.table.count);
    let link = &mut registry.table.links[index];
    let at = LEVELS * index + rng.index(link.levels as usize);
    let sums = &mut registry.sums[at];
    let value = match rng.between(0, 10) {
        0 => &mut link.from,
        1 => &mut link.to,
        2 => &mut link.speed,
        3 => {
            link.levels = rng.between(1, 8) as u32;
            return;
        }
        4 => &mut registry.table.queues[at].threshold,
        5 => &mut registry.table.queues[at].buffer,
        6 => &mut link.fixed_delay,
        7 => {
            link.best_effort_frame = near_frame(rng, link.best_effort_frame);
            return;
        }
        figure => {
            let value = match figure {
                8 => &mut sums.rate,
                9 => &mut sums.burst,
                _ => &mut sums.frame,
            };
            *value = u64::from(near(rng, *value as u32));
            return;
        }
    };
    *value = near(rng, *value);
}
