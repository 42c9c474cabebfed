//! Code 42: whether any registry at all is in order. Nothing in it is trusted: an index is tested
//! before use and sums are made in wide numbers.

use super::path::burst_at_hop;
use super::read::{ends_in_range, extras_in_range, flow_in_range, limits_in_range};
use super::{Registry, HOPS, HOP_POOL, LEVELS, LINKS, SLOTS, WORDS};

/// What the held flows make of the queues. Rates of 256 flows in range fit 32 bits.
struct Sums {
    rate: [[u32; LEVELS]; LINKS],
    burst: [[u64; LEVELS]; LINKS],
    frame: [[u32; LEVELS]; LINKS],
    members: [[[u64; WORDS]; LEVELS]; LINKS],
}

impl Sums {
    const NONE: Sums = Sums {
        rate: [[0; LEVELS]; LINKS],
        burst: [[0; LEVELS]; LINKS],
        frame: [[0; LEVELS]; LINKS],
        members: [[[0; WORDS]; LEVELS]; LINKS],
    };
}

impl Registry {
    /// Document 01's "in order".
    pub fn consistent(&self) -> bool {
        if !self.table_in_range() {
            return false;
        }
        let mut sums = Sums::NONE;
        let mut taken = [0u64; WORDS];
        let mut pool = 0;
        for slot in 0..SLOTS {
            let number = usize::from(self.number[slot]);
            if number == 0 {
                continue;
            }
            // Of two slots with one number only one can be its last.
            if usize::from(self.last[number]) != slot || !self.count_in(slot, &mut sums) {
                return false;
            }
            taken[slot / 64] |= 1 << (slot % 64);
            pool += self.held[slot].count;
        }
        pool <= HOP_POOL
            && pool == self.pool
            && taken == self.taken
            && self.keeps(&sums)
            && self.limits_hold(&sums)
    }

    /// 2 to 4 for the table.
    #[inline(always)]
    fn table_in_range(&self) -> bool {
        if self.links as usize > LINKS {
            return false;
        }
        let mut right = true;
        for link in 0..self.links as usize {
            let (from, to, speed) = (self.from[link], self.to[link], self.speed[link]);
            let levels = self.levels[link];
            right &= ends_in_range(from, to, speed) & (from != to);
            right &= extras_in_range(self.fixed_delay[link], self.best_effort_frame[link]);
            right &= levels.wrapping_sub(1) < LEVELS as u32;
            for level in 0..LEVELS {
                let (threshold, buffer) = (self.threshold[link][level], self.buffer[link][level]);
                right &= limits_in_range(threshold, buffer) | (level as u32 >= levels);
            }
        }
        right
    }

    /// 11, 14 to 17 and 20 for one held flow, which is counted in on the way.
    #[inline(always)]
    fn count_in(&self, slot: usize, sums: &mut Sums) -> bool {
        let flow = &self.held[slot];
        let number = u32::from(self.number[slot]);
        let in_range = flow_in_range(number, flow.rate, flow.burst, flow.frame, flow.deadline)
            && flow.count.wrapping_sub(1) < HOPS as u32
            && flow.frame <= flow.burst;
        if !in_range {
            return false;
        }
        let mut met = 0u64;
        let (mut earlier, mut delay) = (0, 0);
        let mut ended = None;
        for &(link, level) in flow.hops() {
            let (link, level) = (link as usize, level as usize);
            if link >= self.links as usize || level >= self.levels[link] as usize {
                return false;
            }
            if met & (1 << link) != 0 || ended.is_some_and(|node| node != self.from[link]) {
                return false;
            }
            met |= 1 << link;
            ended = Some(self.to[link]);
            sums.rate[link][level] += flow.rate;
            sums.burst[link][level] += burst_at_hop(flow.burst, flow.rate, earlier);
            sums.frame[link][level] = sums.frame[link][level].max(flow.frame);
            sums.members[link][level][slot / 64] |= 1 << (slot % 64);
            earlier += self.hop_growth(link, level);
            delay += self.hop_delay(link, level);
        }
        delay <= flow.deadline
    }

    /// The stored figures are those of the flows.
    #[inline(always)]
    fn keeps(&self, sums: &Sums) -> bool {
        let mut differs = 0;
        for (stored, sum) in self
            .burst
            .as_flattened()
            .iter()
            .zip(sums.burst.as_flattened())
        {
            differs |= u64::from(*stored) ^ sum;
        }
        differs == 0
            && self.rate == sums.rate
            && self.frame == sums.frame
            && self.members == sums.members
    }

    /// 21 to 23 at each link that carries a flow.
    #[inline(always)]
    fn limits_hold(&self, sums: &Sums) -> bool {
        (0..self.links as usize).all(|link| {
            let rate: u64 = sums.rate[link].iter().map(|&rate| u64::from(rate)).sum();
            let free = 1000 * u64::from(self.speed[link]);
            let figures = (&sums.rate[link], &sums.burst[link], &sums.frame[link]);
            rate == 0
                || rate < free && self.first_cause(link, figures.0, figures.1, figures.2) == (0, 0)
        })
    }
}
