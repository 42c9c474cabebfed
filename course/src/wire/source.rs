//! A source that keeps to its token bucket by the clock: its whole burst at once, then a largest frame whenever the bucket
//! holds one. Tokens are counted from just after a frame was sent to just before the next one, so what it sends conforms over
//! every window, however late the machine lets it send.

use super::scale::{Nanos, Scale};
use halls::rng::Rng;
use halls::sources::{sends, Pace, Pattern, Sizes};
use plain::orders::Flow;
use std::collections::VecDeque;

pub struct Source {
    /// Tokens that a ns brings: the flow's rate. A byte is worth `byte` of them.
    rate: u128,
    byte: u128,
    full: u128,
    tokens: u128,
    /// Up to when tokens are counted.
    counted: Nanos,
    /// Frames of the burst that are still to be sent.
    burst: VecDeque<u64>,
    largest: u64,
    /// Largest frames that go before all others and take no tokens: they break the bucket.
    beyond: u64,
    /// Nothing but the burst is sent after this.
    until: Nanos,
}

/// The whole burst in largest frames, what is left over as a smaller one.
fn burst_of(flow: &Flow) -> VecDeque<u64> {
    let pattern = Pattern {
        start: 0,
        sizes: Sizes::Largest,
        pace: Pace::Once,
    };
    // Frames of the largest size leave nothing to chance.
    let frames = sends(&mut Rng::new(0, 0), 0, flow, pattern, 0);
    frames.iter().map(|send| send.bytes).collect()
}

impl Source {
    /// Full at `from`.
    pub fn new(flow: &Flow, scale: Scale, from: Nanos, until: Nanos) -> Source {
        // A kbit/s is a bit per ms of the hall: 8,000,000 ns for a byte, and so many times as long here.
        let byte = 8_000_000 * u128::from(scale.slow);
        let full = byte * u128::from(flow.burst);
        Source {
            rate: u128::from(flow.rate),
            byte,
            full,
            tokens: full,
            counted: from,
            burst: burst_of(flow),
            largest: flow.frame,
            beyond: 0,
            until,
        }
    }

    /// The same with so many largest frames at once beyond what the bucket holds.
    pub fn breaking(self, beyond: u64) -> Source {
        Source { beyond, ..self }
    }

    /// The bytes of its next frame.
    pub fn next_bytes(&self) -> u64 {
        match self.beyond {
            0 => self.burst.front().copied().unwrap_or(self.largest),
            _ => self.largest,
        }
    }

    /// What the next frame takes.
    fn cost(&self) -> u128 {
        match self.beyond {
            0 => self.byte * u128::from(self.next_bytes()),
            _ => 0,
        }
    }

    /// The first moment at which its next frame may go; none when it is done.
    pub fn due(&self) -> Option<Nanos> {
        let missing = self.cost().saturating_sub(self.tokens);
        let wait = missing.div_ceil(self.rate);
        let due = u128::from(self.counted) + wait;
        let last = match self.beyond > 0 || !self.burst.is_empty() {
            true => Nanos::MAX,
            false => self.until,
        };
        (due <= u128::from(last)).then_some(due as Nanos)
    }

    /// Its next frame was sent between these moments; the first isn't before `due`.
    pub fn sent(&mut self, before: Nanos, after: Nanos) {
        let earned = self.rate * u128::from(before.saturating_sub(self.counted));
        let tokens = (self.tokens + earned).min(self.full);
        self.tokens = tokens.saturating_sub(self.cost());
        self.counted = after;
        match self.beyond {
            0 => drop(self.burst.pop_front()),
            _ => self.beyond -= 1,
        }
    }
}
