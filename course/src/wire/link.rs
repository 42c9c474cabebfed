//! When a frame has left a link. The kernel's token bucket lets go of a frame whole, by the time its bytes would have been
//! sent or sooner; so its sending time is added here, from its size and the end of the frame before.

use super::scale::{Nanos, Scale};

pub struct Link {
    scale: Scale,
    /// Mbit/s in the hall.
    speed: u64,
    /// When the last frame that it was given is sent.
    free: Nanos,
    /// How long it has stood idle, though frames waited, since it last had nothing to do.
    lost: Nanos,
}

/// What the kernel's letting go of a frame came to.
#[derive(Clone, Copy, Debug, PartialEq)]
pub struct Sent {
    /// When its last bit is sent.
    pub end: Nanos,
    /// For how long the link had stood idle though a frame waited.
    pub late: Nanos,
    /// The same, summed since the link last had nothing to do: so much longer may a frame have waited for those before it.
    pub lost: Nanos,
    /// How long before the end of the frame before the kernel let go of it.
    pub early: Nanos,
}

impl Link {
    pub fn new(scale: Scale, speed: u64) -> Link {
        Link {
            scale,
            speed,
            free: 0,
            lost: 0,
        }
    }

    /// When it has sent all that it was given.
    pub fn free(&self) -> Nanos {
        self.free
    }

    /// The kernel lets go of the next frame. `oldest` is when that frame came to the link which has waited there longest, this
    /// one or another.
    pub fn dequeued(&mut self, oldest: Nanos, at: Nanos, bytes: u64) -> Sent {
        let late = at.saturating_sub(self.free.max(oldest));
        let early = self.free.saturating_sub(at);
        self.lost = match oldest < self.free {
            true => self.lost + late,
            false => late,
        };
        self.free = self.free.max(at) + self.scale.sending(bytes, self.speed);
        Sent {
            end: self.free,
            late,
            lost: self.lost,
            early,
        }
    }
}
