//! What was seen of each queue, and what it comes to.

use super::run::Stay;
use super::scale::Nanos;
use crate::status::Status;

/// What stays in a queue are held against.
#[derive(Clone, Copy, Debug, PartialEq)]
pub struct Limit {
    pub threshold: Nanos,
    /// By how much a stay may pass its bound because the kernel lets go of small frames early.
    pub early: Nanos,
    /// What the machine adds on the idle link, measured.
    pub noise: Nanos,
    /// The link's speed and what the levels above leave of it, kbit/s: while the link loses time they go on sending, so what is
    /// lost counts by so much more.
    pub speed: u64,
    pub residual: u64,
}

impl Limit {
    /// The most that the machine may have added to a stay. While the frame waited, or since the link last had nothing to do,
    /// `doubt` was lost; frames came to the link later than they should by at most `lag`.
    pub fn added(&self, doubt: Nanos, lag: Nanos) -> Nanos {
        let lost = u128::from(self.noise.max(doubt) + lag);
        let counts = lost * u128::from(self.speed);
        counts.div_ceil(u128::from(self.residual)) as Nanos + self.early
    }
}

/// A stay beside its queue's threshold.
#[derive(Clone, Copy, Debug, PartialEq, Eq, PartialOrd, Ord)]
pub enum Timing {
    InTime,
    /// Above the threshold, and by no more than the machine itself may have added.
    Unclear,
    Late,
}

impl Timing {
    fn of(stay: &Stay, threshold: Nanos) -> Timing {
        match stay.length {
            length if length <= threshold => Timing::InTime,
            length if length <= threshold + stay.added => Timing::Unclear,
            _ => Timing::Late,
        }
    }

    /// Where nothing can be said, nothing was shown: the machine can't.
    pub fn status(self) -> Status {
        match self {
            Timing::InTime => Status::Fine,
            Timing::Unclear => Status::Usage,
            Timing::Late => Status::Late,
        }
    }
}

/// What was seen of a queue.
#[derive(Clone, Debug, Default, PartialEq)]
pub struct Seen {
    pub stays: u64,
    /// The first of its longest stays.
    pub longest: Option<Stay>,
    pub late: u64,
    pub unclear: u64,
}

impl Seen {
    pub fn note(&mut self, stay: &Stay, threshold: Nanos) {
        let timing = Timing::of(stay, threshold);
        self.stays += 1;
        self.late += u64::from(timing == Timing::Late);
        self.unclear += u64::from(timing == Timing::Unclear);
        let longer = |longest: Stay| stay.length > longest.length;
        if self.longest.is_none_or(longer) {
            self.longest = Some(*stay);
        }
    }

    pub fn timing(&self) -> Timing {
        match (self.late, self.unclear) {
            (0, 0) => Timing::InTime,
            (0, _) => Timing::Unclear,
            _ => Timing::Late,
        }
    }
}

/// What all queues come to.
pub fn timing(seen: &[Seen]) -> Timing {
    let all = seen.iter().map(Seen::timing);
    all.max().unwrap_or(Timing::InTime)
}
