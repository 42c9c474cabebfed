//! The store as it stood before W-203, kept to be measured: hop count 0 means that a slot is free, and
//! a flow's entries start at the sum of the hop counts before it.

use super::store::{find_held, put_path, Slot, Store};
use super::{POOL, SLOTS};

#[derive(Clone)]
pub struct Counted {
    pub slots: [Slot; SLOTS],
    pub pool: [u32; POOL],
}

impl Counted {
    /// The sum of the hop counts of the first `count` slots, whatever they are.
    #[inline]
    fn hop_sum(&self, count: usize) -> u64 {
        let sum = |slots: &[Slot]| slots.iter().map(|slot| u64::from(slot.hops)).sum::<u64>();
        let (blocks, rest) = self.slots[..count].as_chunks::<8>();
        blocks.iter().map(|block| sum(block)).sum::<u64>() + sum(rest)
    }
}

impl Store for Counted {
    const EMPTY: Counted = Counted {
        slots: [Slot::NONE; SLOTS],
        pool: [0; POOL],
    };

    #[inline(always)]
    fn is_held(&self, slot: usize) -> bool {
        self.slots[slot].hops != 0
    }

    #[inline(always)]
    fn flow(&self, slot: usize) -> Slot {
        self.slots[slot]
    }

    #[inline(always)]
    fn set_flow(&mut self, slot: usize, flow: Slot) {
        self.slots[slot] = flow;
    }

    #[inline(always)]
    fn pool(&self) -> &[u32; POOL] {
        &self.pool
    }

    #[inline(always)]
    fn pool_mut(&mut self) -> &mut [u32; POOL] {
        &mut self.pool
    }

    #[inline]
    fn find(&self, number: u32) -> Option<usize> {
        let has_number = |slot: &Slot| slot.number == number;
        find_held::<_, 8>(&self.slots, has_number, |slot| self.is_held(slot))
    }

    /// By blocks too.
    #[inline]
    fn first_free(&self) -> Option<usize> {
        let (blocks, _) = self.slots.as_chunks::<16>();
        let some_free =
            |block: &[Slot; 16]| block.iter().fold(false, |met, slot| met | (slot.hops == 0));
        let index = blocks.iter().position(some_free)?;
        let at = blocks[index].iter().position(|slot| slot.hops == 0)?;
        Some(16 * index + at)
    }

    #[inline]
    fn held_entries(&self) -> usize {
        self.hop_sum(SLOTS) as usize
    }

    #[inline]
    fn start(&self, slot: usize) -> usize {
        self.hop_sum(slot) as usize
    }

    #[inline]
    fn insert(&mut self, slot: usize, flow: Slot, path: &[u32], held: usize) {
        let start = self.start(slot);
        put_path(&mut self.pool, start, path, held);
        self.slots[slot] = flow;
    }

    #[inline]
    fn remove(&mut self, slot: usize, start: usize) {
        let end = start + self.slots[slot].hops as usize;
        let after: u32 = self.slots[slot + 1..].iter().map(|slot| slot.hops).sum();
        self.pool.copy_within(end..end + after as usize, start);
        self.slots[slot].hops = 0;
    }

    #[inline(always)]
    fn path(&self, slot: usize, start: usize) -> &[u32] {
        &self.pool[start..start + self.slots[slot].hops as usize]
    }

    #[inline]
    fn packed(&self) -> bool {
        self.hop_sum(SLOTS) <= POOL as u64
    }

    #[inline]
    fn flows(&self) -> impl Iterator<Item = (usize, Slot, &[u32])> {
        let mut rest = &self.pool[..];
        let slots = self.slots.iter().enumerate().map(move |(index, slot)| {
            let (path, after) = rest.split_at(slot.hops as usize);
            rest = after;
            (index, *slot, path)
        });
        slots.filter(|(_, slot, _)| slot.hops != 0)
    }
}
