//! What a path meets by itself, and a flow's bursts along it.

use super::read::Flow;
use super::{Held, Registry, HOPS};
use crate::answer::Answer;

/// The shortest time in which a link sends a frame, µs: the smallest has 672 bits.
#[inline(always)]
fn shortest_sending(speed: u32) -> u32 {
    672_u32.div_ceil(speed)
}

/// Burst at a hop after earlier hops whose parts of S sum to `earlier`.
#[inline(always)]
pub(super) fn burst_at_hop(burst: u32, rate: u32, earlier: u32) -> u64 {
    u64::from(burst) + (u64::from(rate) * u64::from(earlier)).div_ceil(8000)
}

impl Registry {
    /// A hop's part of S for the hops after it, µs.
    #[inline(always)]
    pub(super) fn hop_growth(&self, link: usize, level: usize) -> u32 {
        self.threshold[link][level].saturating_sub(shortest_sending(self.speed[link]))
    }

    /// What a hop takes of the deadline, µs.
    #[inline(always)]
    pub(super) fn hop_delay(&self, link: usize, level: usize) -> u32 {
        self.threshold[link][level] + self.fixed_delay[link]
    }

    /// 14, 16 and 15, each over all hops; the path goes into `entry`.
    #[inline(always)]
    pub(super) fn path(&self, flow: &Flow, entry: &mut Held) -> Option<Answer> {
        let hops = || flow.link.iter().zip(&flow.level).take(flow.count);
        for ((&link, &level), place) in hops().zip(&mut entry.path) {
            let known = link.wrapping_sub(1) < self.links
                && level.wrapping_sub(1) < self.levels[link as usize - 1];
            if !known {
                return Some(Answer::at(14, link, level));
            }
            *place = ((link - 1) as u8, (level - 1) as u8);
        }
        let mut met = 0u64;
        for (&link, &level) in hops() {
            let bit = 1 << (link - 1);
            if met & bit != 0 {
                return Some(Answer::at(16, link, level));
            }
            met |= bit;
        }
        for ((&link, &level), &before) in hops().skip(1).zip(&flow.link) {
            if self.to[before as usize - 1] != self.from[link as usize - 1] {
                return Some(Answer::at(15, link, level));
            }
        }
        None
    }

    /// A flow's burst at each hop of its path; none where the path takes more than the deadline.
    #[inline(always)]
    pub(super) fn bursts(&self, flow: &Held) -> Option<[u64; HOPS]> {
        let mut bursts = [0; HOPS];
        let (mut earlier, mut delay) = (0, 0);
        for (burst, &(link, level)) in bursts.iter_mut().zip(flow.hops()) {
            let (link, level) = (link as usize, level as usize);
            *burst = burst_at_hop(flow.burst, flow.rate, earlier);
            earlier += self.hop_growth(link, level);
            delay += self.hop_delay(link, level);
        }
        (delay <= flow.deadline).then_some(bursts)
    }
}
