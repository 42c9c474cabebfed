//! Sources that keep to their token bucket and make the most of it.

use crate::rng::Rng;
use plain::orders::{Flow, SMALLEST_FRAME};

/// A frame that a source adds.
#[derive(Clone, Copy)]
pub struct Send {
    pub instant: u64,
    /// Index in the list of flows.
    pub flow: usize,
    pub bytes: u64,
}

#[derive(Clone, Copy)]
pub enum Sizes {
    Largest,
    Smallest,
    Random,
}

#[derive(Clone, Copy)]
pub enum Pace {
    /// The whole burst at once, then each frame as soon as the bucket holds it.
    Greedy,
    /// The whole burst at once and nothing more.
    Once,
    /// All that the bucket holds, every so many µs.
    Bursts(u64),
    /// All that the bucket holds, after gaps of up to so many µs.
    Ragged(u64),
}

/// How one source sends.
#[derive(Clone, Copy)]
pub struct Pattern {
    pub start: u64,
    pub sizes: Sizes,
    pub pace: Pace,
}

impl Pattern {
    pub fn random(rng: &mut Rng, span: u64) -> Pattern {
        let span = span.max(1);
        Pattern {
            start: rng.between(0, span),
            sizes: rng.pick(&[
                Sizes::Largest,
                Sizes::Largest,
                Sizes::Smallest,
                Sizes::Random,
            ]),
            pace: match rng.between(0, 5) {
                0..=2 => Pace::Greedy,
                3 => Pace::Once,
                4 => Pace::Bursts(rng.between(1, span)),
                _ => Pace::Ragged(rng.between(1, span)),
            },
        }
    }
}

fn size(rng: &mut Rng, sizes: Sizes, largest: u64) -> u64 {
    match sizes {
        Sizes::Largest => largest,
        Sizes::Smallest => SMALLEST_FRAME,
        Sizes::Random => rng.between(SMALLEST_FRAME, largest),
    }
}

/// Frames that make up so many bytes, all of them where sizes allow.
fn split(rng: &mut Rng, sizes: Sizes, largest: u64, bytes: u64) -> Vec<u64> {
    let mut frames = Vec::new();
    let mut left = bytes;
    while left >= SMALLEST_FRAME {
        let mut next = size(rng, sizes, largest).min(left);
        let rest = left - next;
        if rest > 0 && rest < SMALLEST_FRAME {
            if left <= largest {
                next = left;
            } else if next + rest >= 2 * SMALLEST_FRAME {
                next = left - SMALLEST_FRAME;
            }
        }
        frames.push(next);
        left -= next;
    }
    frames
}

/// What a flow's source sends up to an instant. Tokens are 8000ths of a byte and start full.
pub fn sends(rng: &mut Rng, index: usize, flow: &Flow, pattern: Pattern, until: u64) -> Vec<Send> {
    let full = 8000 * flow.burst;
    let mut tokens = full;
    let mut instant = pattern.start;
    let mut list = Vec::new();
    let mut wanted = None;
    while instant <= until {
        let frames = match wanted {
            Some(bytes) => vec![bytes],
            None => split(rng, pattern.sizes, flow.frame, tokens / 8000),
        };
        for bytes in frames {
            tokens -= 8000 * bytes;
            list.push(Send {
                instant,
                flow: index,
                bytes,
            });
        }
        let gap = match pattern.pace {
            Pace::Once => break,
            Pace::Bursts(period) => period,
            Pace::Ragged(most) => rng.between(1, most),
            Pace::Greedy => {
                let bytes = size(rng, pattern.sizes, flow.frame);
                wanted = Some(bytes);
                (8000 * bytes).saturating_sub(tokens).div_ceil(flow.rate)
            }
        };
        instant += gap;
        tokens = full.min(tokens + flow.rate * gap);
    }
    list
}

/// Document 01's "conforms": over instants s to s+t inclusive, 8000 × bytes is at most
/// 8000 × b + r × t. Frames are 84 bytes to the largest.
pub fn conforms(flow: &Flow, list: &[Send]) -> bool {
    let (rate, full) = (i128::from(flow.rate), 8000 * i128::from(flow.burst));
    let mut before = 0i128;
    let mut least = i128::MAX;
    for send in list {
        if !(SMALLEST_FRAME..=flow.frame).contains(&send.bytes) {
            return false;
        }
        // A window starts at best at an instant with a frame; its bytes are those sent before the
        // window's end less those sent before its start.
        let earned = rate * i128::from(send.instant);
        least = least.min(8000 * before - earned);
        before += i128::from(send.bytes);
        if 8000 * before - earned - least > full {
            return false;
        }
    }
    true
}
