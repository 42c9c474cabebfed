//! Document 01's direct calls and W-206's, as a version's registry offers them.

use crate::answer::Answer;

/// A version's registry with its direct calls.
pub trait Calls: Clone {
    const EMPTY: Self;

    /// Opens it anew on a table text; code and line where it is refused.
    fn open(&mut self, table: &[u8]) -> (u32, u32);
    /// A call for orders of this kind, 42 first.
    fn call(&mut self, kind: u32, bytes: &[u8]) -> Answer;
    /// The same on a registry known to be in order.
    fn call_unchecked(&mut self, kind: u32, bytes: &[u8]) -> Answer;
}
