//! What the search came to see, the worst of it.

use super::hall::{Hall, Traffic};
use super::{WITHOUT_BEST_EFFORT, WITHOUT_GROWTH};
use crate::sim::Seen;
use halls::tables::Count;
use plain::registry::path_fixed_delays;

/// The worst of a measure against its limit.
#[derive(Clone, Default)]
pub struct Worst {
    pub seen: u64,
    pub limit: u64,
    pub place: String,
}

impl Worst {
    fn meet(&mut self, seen: u64, limit: u64, place: impl Fn() -> String) {
        let more = u128::from(seen) * u128::from(self.limit.max(1))
            > u128::from(self.seen) * u128::from(limit);
        if self.limit == 0 || more {
            *self = Worst {
                seen,
                limit,
                place: place(),
            };
        }
    }

    fn print(&self, title: &str) {
        let percent = 100.0 * self.seen as f64 / self.limit.max(1) as f64;
        println!(
            "{title}: {} of {} ({percent:.1} %), {}",
            self.seen, self.limit, self.place
        );
    }
}

/// The worst of some queues.
#[derive(Default)]
pub struct Extremes {
    pub stay: Worst,
    pub backlog: Worst,
}

/// Which queues: all, those that every flow reaches after an earlier hop, those of links with a best-effort frame.
const SOME: [&str; 3] = [
    "of all queues",
    "fed by links alone",
    "beside best-effort frames",
];

/// What adds to a threshold, and the count without it.
const ADDED: [(&str, Count); 2] = [
    ("the best-effort frame", WITHOUT_BEST_EFFORT),
    ("the growth of bursts", WITHOUT_GROWTH),
];

/// Below this many µs, rounding makes a stay as long as its threshold nothing special.
const TELLING_THRESHOLD: u64 = 100;

#[derive(Default)]
pub struct Report {
    pub halls: u64,
    /// Flows that were changed before the traffic.
    pub changed: u64,
    pub runs: u64,
    pub frames: u64,
    /// Best-effort frames, and those that started a slot before frames reached their link.
    pub best_effort: [u64; 2],
    pub extremes: [Extremes; SOME.len()],
    /// What a stay took of the µs that each of `ADDED` adds to its threshold.
    pub added: [Worst; ADDED.len()],
    /// Of the ways that have a fixed delay, what they took beside it, against their thresholds.
    pub journey: Worst,
    /// How often a queue's shortest stay in a run was the shortest sending time, and how often it was longer.
    pub shortest: [u64; 2],
}

impl Report {
    pub fn print(&self) {
        println!(
            "halls: {}, flows changed before: {}, runs: {}, frames: {}",
            self.halls, self.changed, self.runs, self.frames
        );
        let [started, just_before] = self.best_effort;
        println!("best-effort frames: {started}, a slot before an arrival: {just_before}");
        for (queues, worst) in SOME.iter().zip(&self.extremes) {
            worst.stay.print(&format!("longest stay {queues}"));
            worst.backlog.print(&format!("greatest backlog {queues}"));
        }
        for ((what, _), worst) in ADDED.iter().zip(&self.added) {
            worst.print(&format!("of what {what} adds to a threshold"));
        }
        self.journey
            .print("longest way less its fixed delays against thresholds");
        let [least, longer] = self.shortest;
        println!("shortest stay of a queue: {least} times the shortest sending time, {longer} times more, never less");
    }

    pub(super) fn add(&mut self, hall: &Hall, index: u64, seen: &Traffic) {
        self.runs += 1;
        self.frames += seen.frames as u64;
        self.best_effort[0] += seen.best_effort;
        self.best_effort[1] += seen.just_before;
        for (queue, shortest) in seen.shortest.iter().enumerate() {
            if let Some(stay) = shortest {
                self.shortest[usize::from(*stay > hall.least_stay(queue))] += 1;
            }
        }
        self.add_queues(hall, index, &seen.queues);
        for (flow, &longest) in hall.flows.iter().zip(&seen.journeys) {
            let fixed = path_fixed_delays(&hall.queues, &flow.hops) as u64;
            let thresholds = flow.deadline - fixed;
            if fixed > 0 && thresholds >= TELLING_THRESHOLD {
                let place = || format!("hall {index} flow {}", flow.number);
                let queued = longest.saturating_sub(fixed);
                self.journey.meet(queued, thresholds, place);
            }
        }
    }

    fn add_queues(&mut self, hall: &Hall, index: u64, seen: &[Seen]) {
        for (at, most) in seen.iter().enumerate().filter(|&(at, _)| hall.carries(at)) {
            let queue = &hall.queues[at];
            let place = || format!("hall {index} link {} level {}", queue.link, queue.level);
            let counts = [true, hall.fed_by_links(at), queue.best_effort_frame > 0];
            for (worst, _) in self.extremes.iter_mut().zip(counts).filter(|&(_, it)| it) {
                worst.backlog.meet(most.backlog, queue.buffer, place);
                if queue.threshold >= TELLING_THRESHOLD {
                    worst.stay.meet(most.stay, queue.threshold, place);
                }
            }
            for (worst, (_, count)) in self.added.iter_mut().zip(ADDED) {
                let without = hall.delay_by(at, count);
                let added = queue.threshold - without;
                if added >= TELLING_THRESHOLD {
                    worst.meet(most.stay.saturating_sub(without), added, place);
                }
            }
        }
    }
}
