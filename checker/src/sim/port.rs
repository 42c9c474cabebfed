//! A link's sender: what it has under way, how long it is free, and what laptops make of that.

use super::Frame;
use plain::table::Queue;
use std::collections::VecDeque;

/// What a link sends.
#[derive(Clone, Copy)]
pub(super) enum Sending {
    /// The first frame of the queue with this index.
    Queued(usize),
    /// A best-effort frame, which is in no queue.
    BestEffort,
}

/// A link on which nothing waits, free up to the next instant.
pub struct Free {
    /// Index of the link.
    pub link: usize,
    /// The slots up to the instant.
    pub slots: u64,
    /// Slots that a byte takes.
    pub byte: u64,
    /// The link's longest best-effort frame.
    pub most: u64,
    /// Whether frames reach the link's queues at the instant.
    pub due: bool,
}

/// A best-effort frame that starts after so many of the free slots.
#[derive(Clone, Copy, Debug, PartialEq)]
pub struct Start {
    pub after: u64,
    pub bytes: u64,
}

/// The sources of best-effort frames.
pub trait Laptops {
    /// What starts next in the free slots; none where the link stays idle up to the instant.
    fn start(&mut self, free: &Free) -> Option<Start>;
}

/// None.
impl Laptops for () {
    fn start(&mut self, _free: &Free) -> Option<Start> {
        None
    }
}

/// A link's sender; its queues have the indices from `first` on, level 1 first.
pub(super) struct Port {
    /// Slots that a byte takes, and slots of a µs.
    byte: u64,
    micro: u64,
    pub first: usize,
    pub levels: usize,
    /// What is under way and the slots that it still takes.
    under_way: Option<(Sending, u64)>,
    /// The slots before the next instant in which the link is free and nothing waits.
    free: u64,
    best_effort_frame: u64,
    pub fixed_delay: u64,
    /// The frames on the cable to a next queue, in the order in which they left.
    pub cable: VecDeque<Frame>,
}

impl Port {
    /// The link whose first queue this is, with so many slots to a bit.
    pub fn new(queue: &Queue, first: usize, grain: u64) -> Port {
        Port {
            byte: 8 * grain,
            micro: queue.speed * grain,
            first,
            levels: 0,
            under_way: None,
            free: 0,
            best_effort_frame: queue.best_effort_frame,
            fixed_delay: queue.fixed_delay,
            cable: VecDeque::new(),
        }
    }

    pub fn has(&self, queue: usize) -> bool {
        (self.first..self.first + self.levels).contains(&queue)
    }

    /// So many µs begin.
    pub fn begin(&mut self, micros: u64) {
        self.free = micros * self.micro;
    }

    /// Goes on with what is under way, or with the frame that comes next; the queue whose frame has wholly left, if one
    /// does before the slots end. `next` gives the queue that is served first, and the bytes of its frame.
    pub fn send(&mut self, next: impl Fn(&Port) -> Option<(usize, u64)>) -> Option<usize> {
        while self.free > 0 {
            let (what, slots) = match self.under_way {
                Some(sending) => sending,
                None => {
                    let (queue, bytes) = next(self)?;
                    (Sending::Queued(queue), self.byte * bytes)
                }
            };
            self.pass(what, slots);
            match (what, self.under_way) {
                (Sending::Queued(queue), None) => return Some(queue),
                _ => continue,
            }
        }
        None
    }

    /// Whether a best-effort frame may start before the next instant.
    pub fn is_open(&self) -> bool {
        self.best_effort_frame > 0 && self.free > 0
    }

    /// Laptops use the free slots. A frame that they start is never broken off.
    pub fn fill(&mut self, link: usize, due: bool, laptops: &mut impl Laptops) {
        while self.is_open() {
            let free = Free {
                link,
                slots: self.free,
                byte: self.byte,
                most: self.best_effort_frame,
                due,
            };
            let Some(Start { after, bytes }) = laptops.start(&free) else {
                return;
            };
            assert!((1..=self.best_effort_frame).contains(&bytes) && after < self.free);
            self.free -= after;
            self.pass(Sending::BestEffort, self.byte * bytes);
        }
    }

    /// Sends so many slots of something, or as many as are left before the next instant.
    fn pass(&mut self, what: Sending, slots: u64) {
        let sent = self.free.min(slots);
        self.free -= sent;
        self.under_way = (sent < slots).then_some((what, slots - sent));
    }
}
