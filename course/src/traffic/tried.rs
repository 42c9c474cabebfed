//! What the search tries: how each source sends, and when laptops do.

use super::frames::{Laptop, Send, Sends};
use super::hall::Hall;
use super::slots::THOUSAND;
use halls::rng::Rng;
use halls::sources::{sends, Pace, Pattern, Sizes};
use plain::orders::{Flow, SMALLEST_FRAME};

/// One run of fast sources on slow queues would else take all the time.
const MOST_FRAMES: u64 = 100_000;

/// How one source sends; the seed draws what the pattern leaves open.
#[derive(Clone, Copy)]
pub struct Source {
    pub pattern: Pattern,
    pub seed: u64,
}

/// What is tried: for each flow how its source sends, or that it doesn't, and for each link the
/// instant just before which a laptop's longest frame is ready, or none.
#[derive(Clone)]
pub struct Tried {
    pub sources: Vec<Option<Source>>,
    pub laptops: Vec<Option<u64>>,
}

/// The frames of these sources by instant; each keeps to its bucket by how it is made.
fn frames(hall: &Hall, sources: &[Option<Source>]) -> Vec<Send> {
    let started = sources.iter().flatten().map(|source| source.pattern.start);
    let until = started.max().unwrap_or(0) + (2 * hall.span()).min(longest_run(hall));
    let mut all = Vec::new();
    for (index, source) in sources.iter().enumerate() {
        let Some(source) = source else { continue };
        let mut rng = Rng::new(source.seed, 0);
        let list = sends(&mut rng, index, &hall.flows[index], source.pattern, until);
        all.extend(list.iter().map(|send| Send {
            instant: send.instant,
            flow: index,
            bytes: send.bytes,
            line: 0,
        }));
    }
    all.sort_by_key(|send| send.instant);
    all
}

/// The µs in which all sources together send about so many frames at most, beside their bursts.
fn longest_run(hall: &Hall) -> u64 {
    let rates: u64 = hall.flows.iter().map(|flow| flow.rate).sum();
    MOST_FRAMES * SMALLEST_FRAME * 8000 / rates.max(1)
}

/// Each link's longest best-effort frame, 0 where laptops don't share it.
pub fn longest_frames(hall: &Hall) -> Vec<u64> {
    let of_links = hall.queues.iter().filter(|queue| queue.level == 1);
    of_links.map(|queue| queue.best_effort_frame).collect()
}

impl Tried {
    pub fn sends(&self, hall: &Hall) -> Sends {
        Sends {
            frames: frames(hall, &self.sources),
            laptops: self.laptops(hall),
        }
    }

    /// The laptops' frames by their time.
    fn laptops(&self, hall: &Hall) -> Vec<Laptop> {
        let longest = longest_frames(hall);
        let of_link = |(link, before): (usize, &Option<u64>)| {
            let ready = (before.as_ref()? * THOUSAND).checked_sub(1)?;
            Some(Laptop {
                link,
                ready,
                bytes: longest[link],
                line: 0,
            })
        };
        let all = self.laptops.iter().enumerate();
        let mut list: Vec<Laptop> = all.filter_map(of_link).collect();
        list.sort_by_key(|laptop| laptop.ready);
        list
    }

    /// Sources that meet at one queue: greedy ones, so that a frame is under way that isn't broken
    /// off. A laptop's where it is as long as any of the levels below, else those of these levels a
    /// µs before.
    pub fn aligned(hall: &Hall, queue: usize) -> Tried {
        let target = &hall.queues[queue];
        let below = |flow: &Flow| {
            let mut hops = flow.hops.iter();
            hops.any(|hop| hop.link == target.link && hop.level > target.level)
        };
        let flows = hall.flows.iter();
        let frames = flows.clone().filter(|flow| below(flow));
        let longest = frames.map(|flow| flow.frame).max().unwrap_or(0);
        let laptop = target.best_effort_frame > 0 && target.best_effort_frame >= longest;
        let meet = hall.span() + 1;
        let source = |flow: &Flow| {
            let before = travel(hall, flow, target.link) + u64::from(below(flow) && !laptop);
            let pattern = Pattern {
                start: meet.saturating_sub(before),
                sizes: Sizes::Largest,
                pace: Pace::Greedy,
            };
            Some(Source { pattern, seed: 0 })
        };
        let mut laptops = vec![None; hall.links().len()];
        if laptop {
            laptops[target.link as usize - 1] = Some(meet);
        }
        Tried {
            sources: flows.map(source).collect(),
            laptops,
        }
    }
}

/// The µs that a lone frame takes to a link.
fn travel(hall: &Hall, flow: &Flow, link: u64) -> u64 {
    let mut micros = 0;
    for hop in flow.hops.iter().take_while(|hop| hop.link != link) {
        let of_link = hall.queues.iter().find(|queue| queue.link == hop.link);
        micros += of_link.map_or(0, |queue| {
            (8 * flow.frame).div_ceil(queue.speed) + queue.fixed_delay
        });
    }
    micros
}
