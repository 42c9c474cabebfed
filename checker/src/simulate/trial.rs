//! How the sources and laptops of a hall send in one run, and what a search changes of it.

use super::hall::Hall;
use super::laptops::Laptop;
use halls::rng::Rng;
use halls::sources::{Pace, Pattern, Sizes};
use halls::tables::least_deadline;
use plain::orders::{Flow, Hop};
use plain::table::Queue;

#[derive(Clone)]
pub struct Trial {
    /// One for each flow.
    pub patterns: Vec<Pattern>,
    /// One for each link; a link without a best-effort frame has none to send.
    pub laptops: Vec<Laptop>,
}

impl Trial {
    pub fn random(rng: &mut Rng, hall: &Hall) -> Trial {
        let span = hall.span();
        Trial {
            patterns: hall
                .flows
                .iter()
                .map(|_| Pattern::random(rng, span))
                .collect(),
            laptops: (0..hall.links()).map(|_| Laptop::random(rng)).collect(),
        }
    }

    /// Sources that meet at one queue when a frame is under way: its laptop's, or one of a lower level, which comes a µs
    /// before.
    pub fn aligned(rng: &mut Rng, hall: &Hall, target: &Queue) -> Trial {
        let lower_first = target.best_effort_frame == 0 || rng.once_in(3);
        let mut laptops = vec![Laptop::Quiet; hall.links()];
        if !lower_first {
            laptops[target.link as usize - 1] = Laptop::JustBefore(1);
        }
        let base = hall.span() + 1;
        let pattern = |flow: &Flow| {
            let mut hops = flow.hops.iter();
            let below = hops.any(|hop| hop.link == target.link && hop.level > target.level);
            let meet = base - u64::from(below && lower_first);
            Pattern {
                start: meet.saturating_sub(travel(hall, flow, target.link)),
                sizes: rng.pick(&[Sizes::Largest, Sizes::Largest, Sizes::Random]),
                pace: Pace::Greedy,
            }
        };
        Trial {
            patterns: hall.flows.iter().map(pattern).collect(),
            laptops,
        }
    }

    /// Sources whose frames are held up before one link as long as their thresholds allow, and then reach it together.
    pub fn bunched(rng: &mut Rng, hall: &Hall, link: u64) -> Trial {
        let pattern = |flow: &Flow| match held_up_start(hall, flow, link) {
            None => Pattern::random(rng, hall.span()),
            Some(start) => Pattern {
                start,
                sizes: rng.pick(&[Sizes::Largest, Sizes::Largest, Sizes::Random]),
                pace: Pace::Greedy,
            },
        };
        Trial {
            patterns: hall.flows.iter().map(pattern).collect(),
            laptops: vec![Laptop::JustBefore(1); hall.links()],
        }
    }

    /// One source or one laptop changed.
    pub fn changed(&self, rng: &mut Rng, hall: &Hall) -> Trial {
        let mut trial = self.clone();
        let source = rng.index(trial.patterns.len());
        let link = rng.index(trial.laptops.len());
        match rng.between(0, 4) {
            0 | 1 => {
                let start = &mut trial.patterns[source].start;
                *start = (*start + rng.between(0, 20)).saturating_sub(10);
            }
            2 | 3 => trial.patterns[source] = Pattern::random(rng, hall.span()),
            _ => trial.laptops[link] = Laptop::random(rng),
        }
        trial
    }

    /// The same sources without laptops.
    pub fn quiet(mut self) -> Trial {
        self.laptops.fill(Laptop::Quiet);
        self
    }
}

/// The hops of a flow before a link.
fn before(flow: &Flow, link: u64) -> &[Hop] {
    let end = flow.hops.iter().position(|hop| hop.link == link);
    &flow.hops[..end.unwrap_or(flow.hops.len())]
}

/// When a flow starts whose first frames reach a link, held up on their way, with those of the others that cross it. One
/// that doesn't cross it holds another up: it comes to a link that both share a µs before; none where there is no such link.
fn held_up_start(hall: &Hall, flow: &Flow, link: u64) -> Option<u64> {
    let crosses = |flow: &Flow, link: u64| flow.hops.iter().any(|hop| hop.link == link);
    let start = |flow: &Flow| hall.span() + 1 - least_deadline(&hall.queues, before(flow, link));
    if crosses(flow, link) {
        return Some(start(flow));
    }
    let mut others = hall.flows.iter().filter(|other| crosses(other, link));
    others.find_map(|other| {
        let mut earlier = before(other, link).iter();
        let shared = earlier.find(|hop| crosses(flow, hop.link))?.link;
        let meet = start(other) + travel(hall, other, shared);
        Some(meet.saturating_sub(1 + travel(hall, flow, shared)))
    })
}

/// How long a flow's first frame takes to a link that nothing else is in its way to, µs.
fn travel(hall: &Hall, flow: &Flow, link: u64) -> u64 {
    let earlier = before(flow, link).iter();
    let queues = earlier.filter_map(|hop| hall.queues.iter().find(|queue| queue.link == hop.link));
    queues
        .map(|queue| (8 * flow.frame).div_ceil(queue.speed) + queue.fixed_delay)
        .sum()
}
