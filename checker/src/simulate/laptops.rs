//! Laptops that try to be in the way of the registered frames.

use crate::sim::{Free, Laptops, Start};
use halls::rng::Rng;

/// How a link's laptop sends.
#[derive(Clone, Copy, Debug, PartialEq)]
pub enum Laptop {
    Quiet,
    /// The longest frame as late as can be, a slot before the instant: before one in so many of those at which frames
    /// reach the link.
    JustBefore(u64),
    /// The longest frames, one after the other.
    Endless,
    /// Frames of any length at any moment.
    Random,
}

impl Laptop {
    pub fn random(rng: &mut Rng) -> Laptop {
        match rng.between(0, 6) {
            0 => Laptop::Quiet,
            1..=3 => Laptop::JustBefore(1),
            4 => Laptop::JustBefore(rng.between(2, 8)),
            5 => Laptop::Endless,
            _ => Laptop::Random,
        }
    }

    fn start(self, free: &Free, rng: &mut Rng) -> Option<Start> {
        let (slots, bytes) = (free.slots, free.most);
        let longest = free.byte * free.most;
        match self {
            Laptop::Quiet => None,
            Laptop::JustBefore(one_in) => {
                let after = slots - 1;
                (free.due && rng.once_in(one_in)).then_some(Start { after, bytes })
            }
            // Those that end before the instant are in nobody's way.
            Laptop::Endless => {
                let after = (slots - 1) / longest * longest;
                Some(Start { after, bytes })
            }
            Laptop::Random => {
                let after = slots - rng.between(1, slots.min(longest));
                let bytes = rng.between(1, bytes);
                rng.once_in(4).then_some(Start { after, bytes })
            }
        }
    }
}

/// A hall's laptops, one to a link, and what they did.
pub struct Site<'a> {
    laptops: &'a [Laptop],
    rng: Rng,
    pub started: u64,
    /// Those that started a slot before frames reached the link.
    pub just_before: u64,
}

impl<'a> Site<'a> {
    pub fn new(laptops: &'a [Laptop], rng: Rng) -> Site<'a> {
        Site {
            laptops,
            rng,
            started: 0,
            just_before: 0,
        }
    }
}

impl Laptops for Site<'_> {
    fn start(&mut self, free: &Free) -> Option<Start> {
        let start = self.laptops[free.link].start(free, &mut self.rng)?;
        self.started += 1;
        self.just_before += u64::from(free.due && start.after + 1 == free.slots);
        Some(start)
    }
}
