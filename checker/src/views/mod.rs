//! What the runs see of a version's registry, and how they damage it.

mod book;
mod fast;

use crate::calls::Calls;
use halls::rng::Rng;
use plain::formula::Aggregate;
use plain::orders::{Flow, LARGEST_FRAME, SMALLEST_FRAME};
use plain::table::Queue;

/// What document 01 lets count of a registry: table, the flow or none at each slot, figures; and whether the registry's own
/// record of where hop entries lie, if it keeps one, is right.
pub struct View {
    pub queues: Vec<Queue>,
    pub slots: Vec<Option<Flow>>,
    pub stored: Vec<Aggregate>,
    pub placed: bool,
}

/// What the runs ask of a version's registry beside its calls.
pub trait Version: Calls {
    const NAME: &'static str;

    fn consistent(&self) -> bool;
    fn view(&self) -> View;
    /// Changes one of its numbers.
    fn damage(&mut self, rng: &mut Rng);
}

fn near(rng: &mut Rng, value: u32) -> u32 {
    match rng.between(0, 4) {
        0 => value.wrapping_add(1),
        1 => value.wrapping_sub(1),
        2 => 0,
        3 => u32::MAX,
        _ => rng.draw() as u32,
    }
}

/// Another best-effort frame, in range about as often as not: the levels decide then.
fn near_frame(rng: &mut Rng, frame: u32) -> u32 {
    if rng.once_in(2) {
        return near(rng, frame);
    }
    rng.pick(&[0, SMALLEST_FRAME, LARGEST_FRAME]) as u32
}
