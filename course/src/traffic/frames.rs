//! Frames: what is sent, a frame's stay in a queue, a laptop's frame on a link.

use super::slots::{sending, Slots};

/// All that SENDS asks for, each by its time.
#[derive(Clone, Debug, Default, PartialEq)]
pub struct Sends {
    pub frames: Vec<Send>,
    pub laptops: Vec<Laptop>,
}

/// A frame that a source adds.
#[derive(Clone, Copy, Debug, PartialEq)]
pub struct Send {
    pub instant: u64,
    /// Index among the held flows.
    pub flow: usize,
    pub bytes: u64,
    /// The line of SENDS that asks for it.
    pub line: usize,
}

/// A laptop's frame that is ready on a link: a best-effort frame.
#[derive(Clone, Copy, Debug, PartialEq)]
pub struct Laptop {
    /// Index of the link.
    pub link: usize,
    /// From when on it may be sent, in thousandths of a µs.
    pub ready: u64,
    pub bytes: u64,
    /// The line of SENDS that asks for it.
    pub line: usize,
}

/// A laptop's frame that the link took; it is in no queue.
#[derive(Clone, Copy, Debug, PartialEq)]
pub struct BestEffort {
    pub laptop: Laptop,
    pub first: Slots,
    /// The first instant at or after its last bit.
    pub gone: u64,
}

impl BestEffort {
    /// When its last bit is sent.
    pub fn end(&self) -> Slots {
        self.first + sending(self.laptop.bytes)
    }
}

/// A frame's stay in one queue.
#[derive(Clone, Copy, Debug, PartialEq)]
pub struct Stay {
    pub frame: Frame,
    pub queue: usize,
    /// When its first bit is sent, on its link.
    pub first: Slots,
    /// The instant at which it has left.
    pub gone: u64,
}

impl Stay {
    pub fn length(&self) -> u64 {
        self.gone - self.frame.came
    }

    /// When its last bit is sent.
    pub fn end(&self) -> Slots {
        self.first + sending(self.frame.bytes)
    }
}

/// A frame on its way.
#[derive(Clone, Copy, Debug, PartialEq)]
pub struct Frame {
    pub flow: usize,
    /// Counted from 1 in the order in which the flow's source sends.
    pub number: u64,
    pub hop: usize,
    pub bytes: u64,
    /// The instant at which it reached its queue.
    pub came: u64,
    /// What it found under way then, if that was a laptop's.
    pub behind: Option<Behind>,
}

/// A laptop's frame that was under way when a frame came: what was left of it, and the whole of it.
#[derive(Clone, Copy, Debug, PartialEq)]
pub struct Behind {
    pub left: Slots,
    pub whole: Slots,
}
