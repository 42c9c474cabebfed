//! What is proved and can be called from here: the batch, linked from libbatch.a under the feature `linked`, the search for a
//! free slot, linked from libflow_store.a under the feature `search`, and the sender's gate, linked from libsender_gate.a under
//! the feature `gate`.

pub mod gate;

/// A batch over byte areas; code and line number come back.
pub type Batch = fn(&[u8], &[u8], &mut [u8]) -> (u32, u32);
/// A search in words for the least clear bit; 256 where all are set or where there aren't four words.
pub type Search = fn(&[u64]) -> usize;

/// The proved batch and search; none where this program was built without their library.
#[cfg(feature = "linked")]
pub const BATCH: Option<Batch> = Some(linked::batch);
#[cfg(not(feature = "linked"))]
pub const BATCH: Option<Batch> = None;
#[cfg(feature = "search")]
pub const FIRST_FREE: Option<Search> = Some(search::first_free);
#[cfg(not(feature = "search"))]
pub const FIRST_FREE: Option<Search> = None;

#[cfg(feature = "linked")]
mod linked {
    #[repr(C)]
    struct Outcome {
        code: u32,
        line: u32,
    }

    extern "C" {
        fn devvonur_batch(
            table: *const u8,
            table_len: usize,
            orders: *const u8,
            orders_len: usize,
            answers: *mut u8,
            answers_len: usize,
        ) -> Outcome;
    }

    pub fn batch(table: &[u8], orders: &[u8], answers: &mut [u8]) -> (u32, u32) {
        // SAFETY: the three areas are live for the call, and only the answer area is written.
        let outcome = unsafe {
            devvonur_batch(
                table.as_ptr(),
                table.len(),
                orders.as_ptr(),
                orders.len(),
                answers.as_mut_ptr(),
                answers.len(),
            )
        };
        (outcome.code, outcome.line)
    }
}

#[cfg(feature = "search")]
mod search {
    extern "C" {
        fn devvonur_first_free(bits: *const u64, len: usize) -> usize;
    }

    pub fn first_free(words: &[u64]) -> usize {
        // SAFETY: the words are live for the call and only read.
        unsafe { devvonur_first_free(words.as_ptr(), words.len()) }
    }
}
