//! Slow motion: a µs of the hall lasts so many µs here, and links, sources and cables are all as much slower.

/// Real time in ns, since 1970 where it is the clock's.
pub type Nanos = u64;

/// No hall is slowed down further.
pub const MOST_SLOW: u64 = 10_000;

#[derive(Clone, Copy, Debug, PartialEq)]
pub struct Scale {
    /// From 1 on.
    pub slow: u64,
}

impl Scale {
    /// How long so many µs of the hall last here.
    pub fn nanos(self, micros: u64) -> Nanos {
        1000 * self.slow * micros
    }

    /// How long a frame's bytes are sent for here, on a link of so many Mbit/s; rounded up.
    pub fn sending(self, bytes: u64, speed: u64) -> Nanos {
        (8000 * self.slow * bytes).div_ceil(speed)
    }

    /// A link's speed here, bytes per second; nothing where that is no whole number, for the kernel counts in these.
    pub fn bytes_per_second(self, speed: u64) -> Option<u64> {
        let full = 125_000 * speed;
        full.is_multiple_of(self.slow).then(|| full / self.slow)
    }

    /// Real time in tenths of the hall's µs, rounded up, as one decimal: 155.4.
    pub fn shown(self, nanos: Nanos) -> String {
        let tenths = nanos.div_ceil(100 * self.slow);
        format!("{}.{}", crate::numbers::commas(tenths / 10), tenths % 10)
    }
}

/// Where no slow motion is asked for: links come down to this, Mbit/s, and it is at least that.
const USUAL_SPEED: u64 = 10;
const USUAL_SLOW: u64 = 100;

/// The slow motion for these speeds where none is asked for.
pub fn usual(speeds: &[u64]) -> u64 {
    let fastest = speeds.iter().max().copied().unwrap_or(1);
    fastest.div_ceil(USUAL_SPEED).max(USUAL_SLOW)
}

/// The least slow motion, from `least` on, that gives every one of these speeds a whole number of bytes per second.
pub fn whole_for(speeds: &[u64], least: u64) -> Option<Scale> {
    let whole = |scale: &Scale| {
        let mut all = speeds.iter();
        all.all(|&speed| scale.bytes_per_second(speed).is_some())
    };
    (least.max(1)..=MOST_SLOW)
        .map(|slow| Scale { slow })
        .find(whole)
}
