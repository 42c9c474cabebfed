//! The links of a hall that flows cross, as the kernel is to have them, and what stays in their queues are held against.

use super::noise::Probe;
use super::scale::Scale;
use super::verdict::Limit;
use crate::traffic::hall::Hall;
use halls::tables::link_levels;
use plain::formula::{rate_limit, Sums};
use plain::orders::{Flow, SMALLEST_FRAME};
use std::ops::Range;

/// So many levels, no more, have a band of their own in pfifo_fast.
pub const MOST_LEVELS: u64 = 3;

/// A link that flows cross.
#[derive(Clone, Debug, PartialEq)]
pub struct Road {
    /// Its number in the table.
    pub link: u64,
    /// Mbit/s.
    pub speed: u64,
    /// The largest frame that crosses it, bytes on the wire.
    pub largest: u64,
    /// Level 1's first.
    pub queues: Range<usize>,
}

/// The links that flows cross, in the table's order.
pub fn roads(hall: &Hall) -> Vec<Road> {
    let of_link = |queues: Vec<usize>| {
        let first = &hall.queues[queues[0]];
        let crosses = |flow: &&Flow| flow.hops.iter().any(|hop| hop.link == first.link);
        let frames = hall.flows.iter().filter(crosses).map(|flow| flow.frame);
        Some(Road {
            link: first.link,
            speed: first.speed,
            largest: frames.max()?,
            queues: queues[0]..queues[0] + queues.len(),
        })
    };
    hall.links().into_iter().filter_map(of_link).collect()
}

impl Road {
    /// Its queues that carry a flow.
    pub fn carrying<'a>(&self, hall: &'a Hall) -> impl Iterator<Item = usize> + 'a {
        let carries = |queue: &usize| hall.bounds[*queue].is_some();
        self.queues.clone().filter(carries)
    }

    /// For the noise: any of its queues that carries a flow, and its largest frame.
    pub fn probe(&self, hall: &Hall) -> Probe {
        let first = self.carrying(hall).next();
        Probe {
            queue: first.unwrap_or(self.queues.start),
            largest: self.largest,
        }
    }

    /// The most frames that one of its queues holds where all sources conform.
    pub fn most_frames(&self, hall: &Hall) -> u64 {
        let backlogs = self.queues.clone().filter_map(|queue| hall.bounds[queue]);
        let most = backlogs.map(|bounds| bounds.backlog).max().unwrap_or(0);
        most.div_ceil(SMALLEST_FRAME)
    }

    /// What stays in its queues are held against, level 1 first; no noise yet.
    pub fn limits(&self, hall: &Hall, scale: Scale) -> Vec<Limit> {
        let held: Vec<&Flow> = hall.flows.iter().collect();
        let levels = link_levels(&hall.queues, &held, self.link);
        let limit = |queue: usize| {
            let of_link = hall.queues[queue].of_link();
            let sums = Sums::of(of_link, &levels, queue - self.queues.start);
            Limit {
                threshold: scale.nanos(hall.queues[queue].threshold),
                early: scale.nanos(early(self.largest.into(), of_link.speed, &sums)),
                noise: 0,
                speed: rate_limit(of_link.speed) as u64,
                residual: sums.residual as u64,
            }
        };
        self.queues.clone().map(limit).collect()
    }
}

/// By how much a stay of a level may pass its bound in the kernel, µs. The kernel lets go of frames while those that aren't sent
/// yet are no more than one largest frame together: a frame that has to wait is let go behind that many bytes, and only what is
/// let go before it is worked off at what the levels above leave. The bound counts one frame below or the best-effort one, and
/// the level's own largest frame, which it has to spare, all at what the levels above leave. The lowest level that carries a
/// flow has only itself and the levels above before it.
fn early(largest: u128, speed: u128, sums: &Sums) -> u64 {
    let counted = sums.under_way() + sums.own.frame;
    let (may_be, is) = (8 * largest * sums.residual, 8000 * counted * speed);
    match sums.below {
        0 => 0,
        _ => may_be.saturating_sub(is).div_ceil(speed * sums.residual) as u64,
    }
}
