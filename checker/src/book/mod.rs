//! The proved registry's book in plain Rust: the same numbers and the same algorithms (a scan for a
//! flow, a bit for each held slot, packed paths in slot order with their starts, figures kept up to
//! date, one division a hop and none a level, links and flow numbers met marked by a bit), written as
//! one would without proofs. Nothing on the heap, and a scan whose result is at hand isn't made again.
//! `Counted` in place of `Bits` makes it the book as it stood before W-203.

mod bits;
mod check;
mod columns;
mod counted;
mod figures;
mod orders;
mod store;
mod table;

use crate::answer::{put_answer, Answer, ANSWER_LINE};
use crate::calls::Calls;
pub use bits::{first_clear, Bits, WORDS};
pub use counted::Counted;
pub use figures::Aggregate;
use orders::{read_call, read_order, Change, Hop, Order};
pub use store::{Slot, Store};
pub use table::{Link, Queue, Table};

pub const LINKS: usize = 64;
pub const LEVELS: usize = 8;
pub const QUEUES: usize = LINKS * LEVELS;
/// Document 01's places.
pub const SLOTS: usize = 256;
pub const HOPS: usize = 12;
/// Document 01's hop entries.
pub const POOL: usize = 1_024;
const MOST_ORDER_BYTES: usize = 60_000;
const MOST_ORDER_LINES: usize = 2_000;

/// Document 01's book. A hop entry names a queue by 8 × link + level, both from 0.
#[derive(Clone)]
pub struct Registry<S = Bits> {
    pub table: Table,
    pub store: S,
    pub sums: [Aggregate; QUEUES],
}

impl<S: Store> Calls for Registry<S> {
    const EMPTY: Registry<S> = Registry {
        table: Table::EMPTY,
        store: S::EMPTY,
        sums: [Aggregate::NONE; QUEUES],
    };

    fn open(&mut self, table: &[u8]) -> (u32, u32) {
        *self = Registry::EMPTY;
        self.table.read(table)
    }

    fn call(&mut self, kind: u32, bytes: &[u8]) -> Answer {
        if !self.consistent() {
            return Answer::plain(42);
        }
        self.call_unchecked(kind, bytes)
    }

    fn call_unchecked(&mut self, kind: u32, bytes: &[u8]) -> Answer {
        let mut hops = [Hop::NONE; HOPS];
        let order = read_call(kind, bytes, &mut hops);
        self.perform(order, &hops)
    }
}

impl<S: Store> Registry<S> {
    #[inline]
    fn perform(&mut self, order: Order, hops: &[Hop; HOPS]) -> Answer {
        let done = match order {
            Order::Register(flow) => self.put_in(flow, &hops[..flow.hops as usize]),
            Order::Release(number) => self.take_out(number),
            Order::Change(change) => self.change(change),
            Order::Refused(code) => Err(Answer::plain(code)),
        };
        match done {
            Ok(slot) => Answer::done(slot),
            Err(refused) => refused,
        }
    }

    /// Registers a flow; its slot, or the first cause against it.
    #[inline]
    fn put_in(&mut self, flow: Slot, hops: &[Hop]) -> Result<usize, Answer> {
        if self.store.find(flow.number).is_some() {
            return Err(Answer::plain(12));
        }
        if flow.burst < flow.frame {
            return Err(Answer::plain(17));
        }
        let mut entries = [0; HOPS];
        let path = &mut entries[..hops.len()];
        self.table.locate(hops, path)?;
        self.table.judge_path(flow.deadline, path)?;
        let slot = self.store.first_free().ok_or(Answer::plain(30))?;
        let held = self.store.held_entries();
        if POOL < held + path.len() {
            return Err(Answer::plain(31));
        }
        figures::check_links(&flow, path, &self.table, &self.sums)?;
        self.store.insert(slot, flow, path, held);
        figures::add_path(&flow, path, &self.table, &mut self.sums);
        Ok(slot)
    }

    /// Releases the flow with this number; the slot that it had, or 13.
    #[inline]
    fn take_out(&mut self, number: u32) -> Result<usize, Answer> {
        let slot = self.store.find(number).ok_or(Answer::plain(13))?;
        let flow = self.store.flow(slot);
        let start = self.store.start(slot);
        let path = self.store.path(slot, start);
        let again = figures::remove_path(&flow, path, &self.table, &mut self.sums);
        self.store.remove(slot, start);
        if again {
            for (_, flow, path) in self.store.flows() {
                figures::raise_path(flow.frame, path, &mut self.sums);
            }
        }
        Ok(slot)
    }

    /// Gives a held flow another rate and burst; its slot, or the first cause against it.
    #[inline]
    fn change(&mut self, change: Change) -> Result<usize, Answer> {
        let slot = self.store.find(change.number).ok_or(Answer::plain(13))?;
        let old = self.store.flow(slot);
        if change.burst < old.frame {
            return Err(Answer::plain(17));
        }
        let new = Slot {
            rate: change.rate,
            burst: change.burst,
            ..old
        };
        let path = self.store.path(slot, self.store.start(slot));
        figures::check_change(&old, &new, path, &self.table, &self.sums)?;
        figures::change_path(&old, &new, path, &self.table, &mut self.sums);
        self.store.set_flow(slot, new);
        Ok(slot)
    }
}

/// A batch: code and line number come back, the answers go into the area.
pub fn batch<S: Store>(table: &[u8], orders: &[u8], answers: &mut [u8]) -> (u32, u32) {
    let mut registry = Registry::<S>::EMPTY;
    let refused = registry.table.read(table);
    if refused.0 != 0 {
        return refused;
    }
    if orders.len() > MOST_ORDER_BYTES {
        return (41, 0);
    }
    let lines = columns::count_lines(orders);
    if lines > MOST_ORDER_LINES {
        return (41, 0);
    }
    if answers.len() < ANSWER_LINE * lines {
        return (40, 0);
    }
    let (out, _) = answers.as_chunks_mut::<ANSWER_LINE>();
    let mut hops = [Hop::NONE; HOPS];
    for ((number, line), out) in (1..).zip(columns::lines(orders)).zip(out) {
        let order = match line {
            Some(line) => read_order(line, &mut hops),
            None => Order::Refused(10),
        };
        put_answer(out, number, registry.perform(order, &hops));
    }
    (0, lines as u32)
}
