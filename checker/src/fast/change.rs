//! A held flow given another rate and burst in its slot.

use super::path::burst_at_hop;
use super::read::Flow;
use super::{Held, Registry, HOPS};
use crate::answer::Answer;

impl Registry {
    /// 13, 17, then 21 to 23 along the held path, or done.
    #[inline(always)]
    pub(super) fn change(&mut self, wanted: &Flow) -> Answer {
        let Some(slot) = self.find(wanted.number as u16) else {
            return Answer::plain(13);
        };
        let old = self.held[slot];
        if old.frame > wanted.burst {
            return Answer::plain(17);
        }
        let new = Held {
            rate: wanted.rate,
            burst: wanted.burst,
            ..old
        };
        let sums = self.sums_with(&new, &old);
        for (&(rate, burst), &(link, level)) in sums.iter().zip(old.hops()) {
            let (at, level) = (link as usize, level as usize);
            let mut rates = self.rate[at];
            let mut bursts = self.burst[at].map(u64::from);
            (rates[level], bursts[level]) = (rate, burst);
            match self.first_cause(at, &rates, &bursts, &self.frame[at]) {
                (0, _) => {}
                (code, level) => return Answer::at(code, u32::from(link) + 1, level),
            }
        }
        for (&(rate, burst), &(link, level)) in sums.iter().zip(old.hops()) {
            let (link, level) = (link as usize, level as usize);
            self.rate[link][level] = rate;
            self.burst[link][level] = burst as u32;
        }
        self.held[slot] = new;
        Answer::done(slot)
    }

    /// Rate sum and burst sum at each hop of the path with the new share in place of the old.
    #[inline(always)]
    fn sums_with(&self, new: &Held, old: &Held) -> [(u32, u64); HOPS] {
        let mut sums = [(0, 0); HOPS];
        let mut earlier = 0;
        for (sum, &(link, level)) in sums.iter_mut().zip(old.hops()) {
            let (link, level) = (link as usize, level as usize);
            let burst = |flow: &Held| burst_at_hop(flow.burst, flow.rate, earlier);
            *sum = (
                self.rate[link][level] - old.rate + new.rate,
                u64::from(self.burst[link][level]) - burst(old) + burst(new),
            );
            earlier += self.hop_growth(link, level);
        }
        sums
    }
}
