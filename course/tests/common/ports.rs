//! Halls with a port for laptops.

use super::{example, Temporary};
use plain::table::{read_table, Queue};
use std::fs;

/// The example hall's links that laptops share.
pub fn ports() -> Vec<Queue> {
    let table = fs::read(example("hall/table.txt")).unwrap();
    let mut queues = read_table(&table).unwrap();
    queues.retain(|queue| queue.best_effort_frame > 0);
    queues
}

/// Document 01's flows on a link of 100 Mbit/s with this best-effort frame; the thresholds are the bounds with 1,542.
pub fn two_flows(best_effort_frame: u64) -> Temporary {
    let line = |level, threshold| {
        format!(
            "   1   1   2   100{level:>2}{threshold:>7}     9000      0{best_effort_frame:>5}\n"
        )
    };
    let table = [line(1, 371), line(2, 499)].concat();
    let orders = fs::read(example("two-flows/orders.txt")).unwrap();
    let orders = String::from_utf8(orders)
        .unwrap()
        .replace("     374", "     499");
    Temporary::with(table.as_bytes(), orders.as_bytes())
}
