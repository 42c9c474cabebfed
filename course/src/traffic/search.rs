//! Looks for the longest stay: takes one queue after the other, lets conforming sources meet there,
//! and changes one source after the other, or when a laptop sends.

use super::figures::{greater_share, Figures};
use super::frames::{Sends, Stay};
use super::hall::Hall;
use super::network::Network;
use super::run::{run, Arrivals};
use super::tried::{longest_frames, Source, Tried};
use crate::numbers::{commas, counted};
use halls::rng::Rng;
use halls::sources::Pattern;
use plain::orders::Flow;
use std::time::Instant;

/// So many changes without a longer stay end a climb.
const PATIENCE: u32 = 60;

/// The longest stay found so far, and the frames that led to it.
pub struct Best {
    pub stay: Stay,
    pub sends: Sends,
}

/// How long to go on.
pub struct Limits {
    pub until: Instant,
    pub tries: u64,
}

pub struct Search<'a> {
    hall: &'a Hall,
    network: Network,
    arrivals: &'a Arrivals,
    rng: Rng,
    /// The queues that are looked at.
    targets: Vec<usize>,
    /// The links that laptops share.
    ports: Vec<usize>,
    pub tries: u64,
    pub best: Option<Best>,
}

impl<'a> Search<'a> {
    /// Looks at one queue, or at all that carry a flow.
    pub fn new(
        hall: &'a Hall,
        arrivals: &'a Arrivals,
        seed: u64,
        only: Option<usize>,
    ) -> Search<'a> {
        let carries = |&queue: &usize| hall.bounds[queue].is_some();
        let all = (0..hall.queues.len()).filter(carries).collect();
        let longest = longest_frames(hall);
        let shared = |&link: &usize| longest[link] > 0;
        Search {
            ports: (0..longest.len()).filter(shared).collect(),
            targets: only.map_or(all, |queue| vec![queue]),
            hall,
            network: Network::new(&hall.queues, &hall.flows),
            arrivals,
            rng: Rng::new(seed, 0),
            tries: 0,
            best: None,
        }
    }

    /// Climbs at one queue after the other until the limits are met; `tell` hears of each climb.
    pub fn climb_all(&mut self, limits: &Limits, mut tell: impl FnMut(&Search)) {
        let targets = self.targets.clone();
        let mut known: Vec<Option<Tried>> = vec![None; self.hall.queues.len()];
        while !targets.is_empty() && !self.over(limits) {
            for &queue in &targets {
                if self.best.is_some() && self.over(limits) {
                    break;
                }
                let start = match known[queue].take() {
                    Some(tried) if !self.rng.once_in(3) => tried,
                    _ => Tried::aligned(self.hall, queue),
                };
                known[queue] = Some(self.climb(queue, start, limits));
                tell(self);
            }
        }
    }

    fn over(&self, limits: &Limits) -> bool {
        self.tries >= limits.tries || Instant::now() >= limits.until
    }

    /// One run; what is longest of all is kept.
    fn stay_at(&mut self, queue: usize, tried: &Tried) -> u64 {
        self.tries += 1;
        let list = tried.sends(self.hall);
        let mut figures = Figures::new(&self.hall.queues);
        run(&self.network, &list, self.arrivals.clone(), &mut figures);
        let threshold = |stay: &Stay| self.hall.queues[stay.queue].threshold;
        let looked_at = self.targets.iter().map(|&target| &figures.seen[target]);
        for stay in looked_at.filter_map(|seen| seen.longest) {
            let longer = self.best.as_ref().is_none_or(|best| {
                let (of_best, of_stay) = (threshold(&best.stay), threshold(&stay));
                greater_share(stay.length(), of_stay, best.stay.length(), of_best)
            });
            if longer {
                let sends = list.clone();
                self.best = Some(Best { stay, sends });
            }
        }
        figures.seen[queue].stay()
    }

    fn climb(&mut self, queue: usize, mut best: Tried, limits: &Limits) -> Tried {
        let link = self.hall.queues[queue].link;
        let crosses = |flow: &Flow| flow.hops.iter().any(|hop| hop.link == link);
        let near: Vec<usize> = (0..best.sources.len())
            .filter(|&flow| crosses(&self.hall.flows[flow]))
            .collect();
        let mut longest = self.stay_at(queue, &best);
        let mut since = 0;
        while since < PATIENCE && !self.over(limits) {
            let tried = match !self.ports.is_empty() && self.rng.once_in(4) {
                true => self.laptop_changed(&best, link),
                false => self.changed(&best, &near),
            };
            let stay = self.stay_at(queue, &tried);
            since = if stay > longest { 0 } else { since + 1 };
            if stay >= longest {
                longest = stay;
                best = tried;
            }
        }
        best
    }

    /// The same but for one laptop, most often the link's own.
    fn laptop_changed(&mut self, best: &Tried, link: u64) -> Tried {
        let mut changed = best.clone();
        let span = self.hall.span();
        let rng = &mut self.rng;
        let own = link as usize - 1;
        let port = match self.ports.contains(&own) && !rng.once_in(4) {
            true => own,
            false => rng.pick(&self.ports),
        };
        changed.laptops[port] = match changed.laptops[port] {
            Some(before) if !rng.once_in(4) => {
                let reach = rng.pick(&[2, 10, 100, span / 4]).max(1);
                Some((before + rng.between(0, 2 * reach)).saturating_sub(reach))
            }
            Some(_) if rng.once_in(4) => None,
            _ => Some(rng.between(0, 2 * span)),
        };
        changed
    }

    /// The same sources but one, most often one of a flow that crosses the link.
    fn changed(&mut self, best: &Tried, near: &[usize]) -> Tried {
        let mut tried = best.clone();
        let changed = &mut tried.sources;
        let span = self.hall.span();
        let rng = &mut self.rng;
        let index = match rng.once_in(4) {
            true => rng.index(changed.len()),
            false => rng.pick(near),
        };
        let reach = rng.pick(&[2, 10, 100, span / 4]).max(1);
        changed[index] = match changed[index] {
            Some(source) if !rng.once_in(4) => {
                let mut pattern = source.pattern;
                let later = pattern.start + rng.between(0, 2 * reach);
                pattern.start = later.saturating_sub(reach);
                Some(Source { pattern, ..source })
            }
            Some(_) if rng.once_in(4) => None,
            _ => Some(Source {
                pattern: Pattern::random(rng, 2 * span),
                seed: rng.draw(),
            }),
        };
        tried
    }
}

impl Search<'_> {
    /// `1,200 runs; longest 246 of 371 µs at link 1 level 1`.
    pub fn words(&self) -> String {
        let runs = counted(self.tries as usize, "run", "runs");
        match &self.best {
            None => runs,
            Some(best) => format!(
                "{runs}; longest {} of {} µs at {}",
                commas(best.stay.length()),
                commas(self.hall.queues[best.stay.queue].threshold),
                self.hall.place(best.stay.queue)
            ),
        }
    }
}
