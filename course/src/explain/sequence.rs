//! Whether the order in which the lines stand matters, said once after all of them.

use crate::numbers::commas;
use crate::session::Step;
use plain::causes;
use plain::orders::Order;

/// What there is to know of the lines.
#[derive(Default)]
pub struct Sequence {
    pub lines: usize,
    registrations: usize,
    /// Releases and changes.
    of_held: usize,
    admitted: usize,
}

impl Sequence {
    /// One line more. One that can't be read or is out of range is no registration, but a line that isn't admitted.
    pub fn add(&mut self, step: &Step) {
        self.lines += 1;
        match step.order {
            Ok(Order::Register(_)) => self.registrations += 1,
            Ok(Order::Release(_) | Order::Change(_)) => self.of_held += 1,
            Err(_) => {}
        }
        self.admitted += usize::from(step.answer.code == causes::DONE);
    }

    /// Nothing where there is no other order, or where a release or a change is among the lines: it goes by what is held when
    /// it comes.
    pub fn words(&self) -> Option<String> {
        if self.of_held > 0 || self.registrations < 2 {
            return None;
        }
        let (lines, admitted) = (commas(self.lines), commas(self.admitted));
        Some(match self.admitted == self.lines {
            true => format!(
                "lines 1 to {lines}: their order doesn't matter
    All {lines} were admitted. In any other order each is admitted too, and every queue's figures and bounds come out the same.
    Only the places go by the order, 1 to {lines} as they come. Any part of the lines is admitted too, in any order.
"
            ),
            false => format!(
                "lines 1 to {lines}: their order can matter
    Admitted: {admitted} of {lines}. Where not all are, no order gets all of them in, but another may let others in, more or fewer.
"
            ),
        })
    }
}
