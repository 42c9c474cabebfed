//! What several tests ask of all versions.

use checker::versions::versions;
use plain::programs::{admit, admit_by};

/// What is printed for a table and orders, the same by all versions.
pub fn printed(table: &str, orders: &str) -> String {
    let (table, orders) = (table.as_bytes(), orders.as_bytes());
    let known = admit(table, orders);
    for (name, batch) in versions() {
        let batch = |table: &[u8], orders: &[u8], answers: &mut [u8]| {
            let (code, line) = batch(table, orders, answers);
            (u64::from(code), u64::from(line))
        };
        assert_eq!(admit_by(batch, table, orders), known, "{name}");
    }
    String::from_utf8(known).unwrap()
}
