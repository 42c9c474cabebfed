//! A separately written checker of document 01 and of document 02's requests that have landed.

pub mod answer;
pub mod bench;
pub mod book;
pub mod calls;
pub mod clock;
pub mod compare;
pub mod fast;
pub mod gates;
pub mod handover;
pub mod lists;
pub mod loads;
pub mod offers;
pub mod process;
pub mod rounds;
pub mod search;
pub mod sequences;
pub mod sim;
pub mod simulate;
pub mod stack;
pub mod vectors;
pub mod versions;
pub mod views;
