//! The versions that are set beside the plain one.

use crate::book::{self, Bits, Counted};
use crate::fast;
use plain::programs::answer_line;
use plain::registry::Answer;
pub use proved::Batch;

pub const PROVED: &str = "proved";
pub const BOOK: &str = "book";
pub const COUNTED: &str = "counted";
pub const FAST: &str = "fast";

/// Each version's batch; the proved one where it is linked.
pub fn versions() -> Vec<(&'static str, Batch)> {
    let proved = proved::BATCH.map(|batch| (PROVED, batch));
    let others = [
        (BOOK, book::batch::<Bits> as Batch),
        (COUNTED, book::batch::<Counted>),
        (FAST, fast::batch),
    ];
    proved.into_iter().chain(others).collect()
}

/// Whether each batch admits all of so many registrations, in slots as they come; the first that doesn't is told.
pub fn admitted_in_turn(
    batches: &[(&'static str, Batch)],
    table: &[u8],
    orders: &[u8],
    count: usize,
) -> Result<(), String> {
    let done = (0..count).flat_map(|index| answer_line(index + 1, &Answer::done(index)));
    let known: Vec<u8> = done.collect();
    for (name, batch) in batches {
        let mut answers = vec![0; known.len()];
        let outcome = batch(table, orders, &mut answers);
        if outcome != (0, count as u32) || answers != known {
            return Err(format!("{name}: {outcome:?}, or another answer than 0"));
        }
    }
    Ok(())
}
