//! 21, 22 and 23: the levels of one link, all of them in one pass.

use super::{Registry, LEVELS};

impl Registry {
    /// 21, 22 or 23 with a flow counted in at one queue, and the level named; 0 if none.
    #[inline(always)]
    pub(super) fn link_cause(
        &self,
        at: (usize, usize),
        rate: u32,
        burst: u64,
        frame: u32,
    ) -> (u32, u32) {
        let (link, level) = at;
        let mut rates = self.rate[link];
        let mut bursts = self.burst[link].map(u64::from);
        let mut frames = self.frame[link];
        rates[level] += rate;
        bursts[level] += burst;
        frames[level] = frames[level].max(frame);
        self.first_cause(link, &rates, &bursts, &frames)
    }

    /// 21, 22 or 23 at a link with these figures. The bounds are compared as products:
    /// ceil(a / b) <= t exactly when a <= t * b.
    #[inline(always)]
    pub(super) fn first_cause(
        &self,
        link: usize,
        rates: &[u32; LEVELS],
        bursts: &[u64; LEVELS],
        frames: &[u32; LEVELS],
    ) -> (u32, u32) {
        let speed = 1000 * self.speed[link];
        if rates.iter().sum::<u32>() >= speed {
            return (21, 0);
        }
        // A best-effort frame is below every level, the last one too.
        let mut below = [self.best_effort_frame[link]; LEVELS];
        for p in (0..LEVELS - 1).rev() {
            below[p] = below[p + 1].max(frames[p + 1]);
        }
        let mut residual = u64::from(speed);
        let mut above = 0u64;
        for p in 0..LEVELS {
            if rates[p] == 0 {
                continue;
            }
            let ahead = above + u64::from(below[p] + frames[p]);
            let threshold = u64::from(self.threshold[link][p]);
            if 8000 * (ahead + bursts[p]) > threshold * residual {
                return (22, p as u32 + 1);
            }
            let buffer = u64::from(self.buffer[link][p]);
            if bursts[p] > buffer || u64::from(rates[p]) * ahead > (buffer - bursts[p]) * residual {
                return (23, p as u32 + 1);
            }
            residual -= u64::from(rates[p]);
            above += bursts[p];
        }
        (0, 0)
    }
}
