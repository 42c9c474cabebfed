//! What a registry asks of the store of its held flows and their paths. Each store has the hop
//! entries of the held flows one after the other in slot order.

use super::{POOL, SLOTS};

/// A flow as its line gave it.
#[derive(Clone, Copy, Debug, PartialEq)]
pub struct Slot {
    pub number: u32,
    pub rate: u32,
    pub burst: u32,
    pub frame: u32,
    pub deadline: u32,
    pub hops: u32,
}

#[inline(always)]
pub fn number_in_range(number: u32) -> bool {
    (1..=65_535).contains(&number)
}

#[inline(always)]
pub fn rate_in_range(rate: u32) -> bool {
    (1..=10_000_000).contains(&rate)
}

#[inline(always)]
pub fn burst_in_range(burst: u32) -> bool {
    (84..=1_000_000).contains(&burst)
}

impl Slot {
    pub const NONE: Slot = Slot {
        number: 0,
        rate: 0,
        burst: 0,
        frame: 0,
        deadline: 0,
        hops: 0,
    };

    /// Code 11's ranges, the hop count apart.
    #[inline]
    pub fn in_range(&self) -> bool {
        number_in_range(self.number)
            && rate_in_range(self.rate)
            && burst_in_range(self.burst)
            && (84..=1_542).contains(&self.frame)
            && (1..=10_000_000).contains(&self.deadline)
    }
}

/// The held flows and their paths.
pub trait Store: Clone {
    const EMPTY: Self;

    fn is_held(&self, slot: usize) -> bool;
    /// The numbers of a slot; those of a free one mean nothing.
    fn flow(&self, slot: usize) -> Slot;
    /// Gives a slot other numbers, where it stands.
    fn set_flow(&mut self, slot: usize, flow: Slot);
    fn pool(&self) -> &[u32; POOL];
    fn pool_mut(&mut self) -> &mut [u32; POOL];
    /// The slot that holds the flow with this number.
    fn find(&self, number: u32) -> Option<usize>;
    /// The lowest free slot.
    fn first_free(&self) -> Option<usize>;
    /// How many hop entries are held.
    fn held_entries(&self) -> usize;
    /// Where the entries of a held slot begin.
    fn start(&self, slot: usize) -> usize;
    /// Puts a flow with its path in the lowest free slot; `held` hop entries are held before.
    fn insert(&mut self, slot: usize, flow: Slot, path: &[u32], held: usize);
    /// Empties a held slot whose entries begin at `start`.
    fn remove(&mut self, slot: usize, start: usize);
    /// Whether a store of any content has its held entries where it says, within the pool.
    fn packed(&self) -> bool;
    /// Each held slot with its flow and path; the store is packed.
    fn flows(&self) -> impl Iterator<Item = (usize, Slot, &[u32])>;

    /// The path of a held slot whose entries begin at `start`.
    fn path(&self, slot: usize, start: usize) -> &[u32];
}

/// The first held slot with a number that is looked for. Blocks are searched for the number alone and
/// without an early exit, so that several slots are compared at once.
#[inline(always)]
pub fn find_held<T, const BLOCK: usize>(
    slots: &[T; SLOTS],
    has_number: impl Fn(&T) -> bool,
    is_held: impl Fn(usize) -> bool,
) -> Option<usize> {
    let (blocks, _) = slots.as_chunks::<BLOCK>();
    blocks.iter().enumerate().find_map(|(index, block)| {
        if !block.iter().fold(false, |met, slot| met | has_number(slot)) {
            return None;
        }
        let mut among = BLOCK * index..BLOCK * (index + 1);
        among.find(|&slot| has_number(&slots[slot]) && is_held(slot))
    })
}

/// Puts a path between the first `start` of the held entries and the rest.
#[inline(always)]
pub fn put_path(pool: &mut [u32; POOL], start: usize, path: &[u32], held: usize) {
    let end = start + path.len();
    pool.copy_within(start..held, end);
    pool[start..end].copy_from_slice(path);
}
