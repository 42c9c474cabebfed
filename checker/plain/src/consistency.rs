//! Document 01's "in order".

use crate::formula::Aggregate;
use crate::orders::{flow_in_range, Flow};
use crate::registry::{aggregate, Registry, HOP_POOL, SLOTS};
use crate::table::{fault, Queue};

/// For a table, the flow or none at each slot and the stored figures of each queue.
pub fn consistent(queues: &[Queue], slots: &[Option<Flow>], stored: &[Aggregate]) -> bool {
    for (i, queue) in queues.iter().enumerate() {
        let before = if i == 0 { None } else { queues.get(i - 1) };
        if fault(queue, before).is_some() {
            return false;
        }
    }
    let held: Vec<&Flow> = slots.iter().flatten().collect();
    let hops: usize = held.iter().map(|flow| flow.hops.len()).sum();
    if slots.len() != SLOTS || hops > HOP_POOL {
        return false;
    }
    let figures_kept = stored.len() == queues.len()
        && queues
            .iter()
            .zip(stored)
            .all(|(queue, &kept)| aggregate(queues, &held, queue) == kept);
    figures_kept && held.iter().all(|flow| flow_in_range(flow)) && each_beside(queues, slots)
}

/// Each held flow meets none of 12, 14 to 17 and 20, and none of 21 to 23 with all held flows counted once: it is judged
/// beside the others, as if it were new. The room limits hold for all together.
fn each_beside(queues: &[Queue], slots: &[Option<Flow>]) -> bool {
    let mut others = Registry::over(queues.to_vec());
    others.slots = slots.to_vec();
    (0..slots.len()).all(|index| {
        let Some(flow) = others.slots[index].take() else {
            return true;
        };
        let refused = others.judge(&flow).refused;
        others.slots[index] = Some(flow);
        refused.is_none()
    })
}
