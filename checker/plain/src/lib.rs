//! The reference model: document 01, with W-201, W-202, W-204, W-206, W-207 and W-208 of document 02, in the plainest way, worked
//! out anew for each order. Every number and rule of the papers stands here once: fields and ranges in `table` and `orders`,
//! sizes beside what they limit, the order of causes in `causes`, the formulas in `formula`.

mod calls;
pub mod causes;
pub mod columns;
pub mod consistency;
pub mod faults;
pub mod formula;
pub mod gate;
pub mod handover;
pub mod offers;
pub mod orders;
pub mod programs;
pub mod registry;
pub mod slips;
pub mod table;
pub mod work;
