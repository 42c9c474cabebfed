//! Code 42: whether a registry of any content is in order.

use super::figures::{add_path, links_meet};
use super::{Aggregate, Registry, Slot, Store, HOPS, QUEUES};

/// Words with a bit for each flow number, 0 too.
const NUMBER_WORDS: usize = 65_536 / 64;

impl<S: Store> Registry<S> {
    /// Document 01's "in order".
    pub fn consistent(&self) -> bool {
        self.store.packed()
            && self.table.consistent()
            && self.flows_stand()
            && self.figures_right()
            && links_meet(&self.table, &self.sums)
    }

    /// 11, 12, 14 to 17 and 20 for each held flow beside the others.
    fn flows_stand(&self) -> bool {
        let mut met = [0; NUMBER_WORDS];
        let mut flows = self.store.flows();
        flows.all(|(_, flow, path)| self.flow_stands(&flow, path, &mut met))
    }

    /// `met` has the numbers of the held flows before this one.
    fn flow_stands(&self, flow: &Slot, path: &[u32], met: &mut [u64; NUMBER_WORDS]) -> bool {
        (1..=HOPS).contains(&path.len())
            && flow.in_range()
            && flow.frame <= flow.burst
            && first_met(flow.number, met)
            && path.iter().all(|&entry| self.table.has(entry))
            && self.table.judge_path(flow.deadline, path).is_ok()
    }

    /// The stored figures are those of the flows, worked out anew.
    fn figures_right(&self) -> bool {
        let mut fresh = [Aggregate::NONE; QUEUES];
        for (_, flow, path) in self.store.flows() {
            add_path(&flow, path, &self.table, &mut fresh);
        }
        fresh == self.sums
    }
}

/// Marks a number in range; whether it wasn't marked before.
fn first_met(number: u32, met: &mut [u64; NUMBER_WORDS]) -> bool {
    let word = &mut met[number as usize / 64];
    let bit = 1 << (number % 64);
    let first = *word & bit == 0;
    *word |= bit;
    first
}
