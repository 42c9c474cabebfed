//! W-203's store: a bit alone says whether a slot is held, and a held slot has the position in the
//! pool where its entries start. So nothing is counted again, and a free slot is found in 4 words.

use super::store::{find_held, put_path, Slot, Store};
use super::{POOL, SLOTS};

pub const WORDS: usize = SLOTS / 64;

/// Slot i is held where bit i % 64 of word i / 64 is set; the numbers of a free slot mean nothing.
/// Those of one kind stand together, for some are read or moved many at once.
#[derive(Clone)]
pub struct Bits {
    pub bits: [u64; WORDS],
    pub numbers: [u32; SLOTS],
    pub rates: [u32; SLOTS],
    pub bursts: [u32; SLOTS],
    pub frames: [u32; SLOTS],
    pub deadlines: [u32; SLOTS],
    pub hops: [u32; SLOTS],
    pub starts: [u32; SLOTS],
    pub pool: [u32; POOL],
}

/// The least clear bit.
#[inline]
pub fn first_clear(words: &[u64; WORDS]) -> Option<usize> {
    let in_word = |(index, &word): (usize, &u64)| {
        (word != u64::MAX).then(|| 64 * index + word.trailing_ones() as usize)
    };
    words.iter().enumerate().find_map(in_word)
}

/// The greatest set bit.
#[inline]
fn last_set(words: &[u64; WORDS]) -> Option<usize> {
    let in_word =
        |(index, &word): (usize, &u64)| (word != 0).then(|| 64 * index + word.ilog2() as usize);
    words.iter().enumerate().rev().find_map(in_word)
}

impl Bits {
    /// Where the entries of a held slot end.
    #[inline(always)]
    fn end(&self, slot: usize) -> usize {
        (self.starts[slot] + self.hops[slot]) as usize
    }

    #[inline]
    fn held(&self) -> impl Iterator<Item = usize> + '_ {
        (0..SLOTS).filter(|&slot| self.is_held(slot))
    }
}

impl Store for Bits {
    const EMPTY: Bits = Bits {
        bits: [0; WORDS],
        numbers: [0; SLOTS],
        rates: [0; SLOTS],
        bursts: [0; SLOTS],
        frames: [0; SLOTS],
        deadlines: [0; SLOTS],
        hops: [0; SLOTS],
        starts: [0; SLOTS],
        pool: [0; POOL],
    };

    #[inline(always)]
    fn is_held(&self, slot: usize) -> bool {
        self.bits[slot / 64] >> (slot % 64) & 1 != 0
    }

    #[inline(always)]
    fn flow(&self, slot: usize) -> Slot {
        Slot {
            number: self.numbers[slot],
            rate: self.rates[slot],
            burst: self.bursts[slot],
            frame: self.frames[slot],
            deadline: self.deadlines[slot],
            hops: self.hops[slot],
        }
    }

    #[inline(always)]
    fn set_flow(&mut self, slot: usize, flow: Slot) {
        self.numbers[slot] = flow.number;
        self.rates[slot] = flow.rate;
        self.bursts[slot] = flow.burst;
        self.frames[slot] = flow.frame;
        self.deadlines[slot] = flow.deadline;
        self.hops[slot] = flow.hops;
    }

    #[inline(always)]
    fn pool(&self) -> &[u32; POOL] {
        &self.pool
    }

    #[inline(always)]
    fn pool_mut(&mut self) -> &mut [u32; POOL] {
        &mut self.pool
    }

    #[inline]
    fn find(&self, number: u32) -> Option<usize> {
        let has_number = |own: &u32| *own == number;
        find_held::<_, 16>(&self.numbers, has_number, |slot| self.is_held(slot))
    }

    #[inline]
    fn first_free(&self) -> Option<usize> {
        first_clear(&self.bits)
    }

    #[inline]
    fn held_entries(&self) -> usize {
        last_set(&self.bits).map_or(0, |slot| self.end(slot))
    }

    #[inline(always)]
    fn start(&self, slot: usize) -> usize {
        self.starts[slot] as usize
    }

    /// The slot before the lowest free one is held. The starts of free slots move too, so that
    /// several are moved at once.
    #[inline]
    fn insert(&mut self, slot: usize, flow: Slot, path: &[u32], held: usize) {
        let start = slot.checked_sub(1).map_or(0, |before| self.end(before));
        put_path(&mut self.pool, start, path, held);
        self.set_flow(slot, flow);
        self.starts[slot] = start as u32;
        for later in &mut self.starts[slot + 1..] {
            *later = later.wrapping_add(flow.hops);
        }
        self.bits[slot / 64] |= 1 << (slot % 64);
    }

    #[inline]
    fn remove(&mut self, slot: usize, start: usize) {
        let later = self.end(slot)..self.held_entries();
        self.pool.copy_within(later, start);
        let hops = self.hops[slot];
        for later in &mut self.starts[slot + 1..] {
            *later = later.wrapping_sub(hops);
        }
        self.bits[slot / 64] &= !(1 << (slot % 64));
    }

    #[inline(always)]
    fn path(&self, slot: usize, start: usize) -> &[u32] {
        &self.pool[start..start + self.hops[slot] as usize]
    }

    /// Each held slot's start is the sum of the held hop counts before it.
    #[inline]
    fn packed(&self) -> bool {
        let mut sum = 0;
        let right = self.held().all(|slot| {
            let right = u64::from(self.starts[slot]) == sum;
            sum += u64::from(self.hops[slot]);
            right
        });
        right && sum <= POOL as u64
    }

    #[inline]
    fn flows(&self) -> impl Iterator<Item = (usize, Slot, &[u32])> {
        self.held()
            .map(|slot| (slot, self.flow(slot), self.path(slot, self.start(slot))))
    }
}
