//! Document 01's formulas, in its whole units, with W-202's best-effort frame in Y and W-208's count of S. Wide numbers, so
//! that no product has to be thought about.

use crate::orders::SMALLEST_FRAME;

/// What document 01 calls the figures of a queue; also what one flow adds to them.
#[derive(Clone, Copy, Debug, Default, PartialEq)]
pub struct Aggregate {
    pub rate: u128,
    pub burst: u128,
    /// Largest frame, 0 where there is none.
    pub frame: u128,
}

impl Aggregate {
    /// With another counted in.
    pub fn with(self, other: Aggregate) -> Aggregate {
        Aggregate {
            rate: self.rate + other.rate,
            burst: self.burst + other.burst,
            frame: self.frame.max(other.frame),
        }
    }

    /// A rate is at least 1, so a queue without a flow is one whose rate sum is 0.
    pub fn is_empty(&self) -> bool {
        self.rate == 0
    }
}

/// What is divided by Res, or by 8000, to give a bound.
#[derive(Clone, Copy, Debug, PartialEq)]
pub struct Quotient {
    pub number: u128,
    pub divisor: u128,
}

impl Quotient {
    pub fn ceiling(self) -> u128 {
        self.number.div_ceil(self.divisor)
    }

    pub fn floor(self) -> u128 {
        self.number / self.divisor
    }
}

/// The shortest time in which a link sends a frame, µs: the smallest has 672 bits, and the speed is in bits per µs.
pub fn shortest_sending(speed: u128) -> u128 {
    (8 * u128::from(SMALLEST_FRAME)).div_ceil(speed)
}

/// A hop's part of S for the hops after it, µs. No frame leaves a queue sooner than it is sent, so only the rest of the
/// threshold can bunch frames.
pub fn hop_growth(threshold: u128, speed: u128) -> u128 {
    threshold.saturating_sub(shortest_sending(speed))
}

/// The growth of a burst after earlier hops whose parts sum to S, `earlier` µs.
pub fn growth(rate: u128, earlier: u128) -> Quotient {
    Quotient {
        number: rate * earlier,
        divisor: 8000,
    }
}

/// Burst at a hop after earlier hops whose parts sum to S, `earlier` µs.
pub fn burst_at_hop(burst: u128, rate: u128, earlier: u128) -> u128 {
    burst + growth(rate, earlier).ceiling()
}

/// What the formulas ask of a link.
#[derive(Clone, Copy, Debug, Default, PartialEq)]
pub struct Link {
    /// Mbit/s.
    pub speed: u128,
    /// The longest best-effort frame that it may carry, bytes; 0 where it carries none.
    pub best_effort_frame: u128,
}

/// The sum of a link's rates, kbit/s.
pub fn rate_sum(levels: &[Aggregate]) -> u128 {
    levels.iter().map(|level| level.rate).sum()
}

/// What the rate sum of all levels of a link must stay below, kbit/s.
pub fn rate_limit(speed: u128) -> u128 {
    1000 * speed
}

/// Whether the rate sum of all levels of a link stays below its speed.
pub fn rate_passes(speed: u128, levels: &[Aggregate]) -> bool {
    rate_sum(levels) < rate_limit(speed)
}

/// The sums of one level of a link that carries a flow.
#[derive(Clone, Copy, Debug, PartialEq)]
pub struct Sums {
    /// Res: what the levels above leave of the link, kbit/s.
    pub residual: u128,
    /// Burst sums of the levels above, bytes.
    pub above: u128,
    /// The largest frame of all levels below.
    pub below: u128,
    /// The link's longest best-effort frame.
    pub best_effort_frame: u128,
    pub own: Aggregate,
}

impl Sums {
    /// Of the level with index `p` (0 for level 1). Asks for the rate rule.
    pub fn of(link: Link, levels: &[Aggregate], p: usize) -> Sums {
        let below = levels[p + 1..].iter().map(|level| level.frame).max();
        Sums {
            residual: rate_limit(link.speed) - rate_sum(&levels[..p]),
            above: levels[..p].iter().map(|level| level.burst).sum(),
            below: below.unwrap_or(0),
            best_effort_frame: link.best_effort_frame,
            own: levels[p],
        }
    }

    /// What can be under way when the queue's frames come: one frame, of a level below or a best-effort one.
    pub fn under_way(&self) -> u128 {
        self.below.max(self.best_effort_frame)
    }

    /// Y: what can stand before the queue's own burst, bytes.
    pub fn ahead(&self) -> u128 {
        self.above + self.under_way() + self.own.frame
    }

    /// Eq. 12 before it is rounded, µs.
    pub fn delay(&self) -> Quotient {
        Quotient {
            number: 8000 * (self.ahead() + self.own.burst),
            divisor: self.residual,
        }
    }

    /// Eq. 13's part beside the burst sum before it is rounded, bytes.
    pub fn rise(&self) -> Quotient {
        Quotient {
            number: self.own.rate * self.ahead(),
            divisor: self.residual,
        }
    }
}

/// Eq. 12, µs, for the level with index `p`.
pub fn delay(link: Link, levels: &[Aggregate], p: usize) -> u128 {
    Sums::of(link, levels, p).delay().ceiling()
}

/// Eq. 13, bytes.
pub fn backlog(link: Link, levels: &[Aggregate], p: usize) -> u128 {
    levels[p].burst + Sums::of(link, levels, p).rise().ceiling()
}
