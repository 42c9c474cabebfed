//! Sets traffic on admitted flows over tables whose thresholds and buffers are the bounds, and
//! looks for the longest stay and the greatest backlog by changing one source or laptop after the other.

mod hall;
mod laptops;
mod report;
mod trial;

use crate::sim::{Fault, Seen};
pub use hall::{Failure, Hall, Traffic};
use halls::rng::Rng;
use halls::tables::{Bounds, Count};
pub use laptops::{Laptop, Site};
use plain::formula::Link;
use plain::slips::{Growth, Slips};
pub use report::Report;
pub use trial::Trial;

/// Tries so many changes of one source or laptop for the longest stay, or the greatest backlog, at a queue.
const CLIMB: usize = 30;

/// So many halls; a frame late, in a queue or on its whole way, or a buffer exceeded ends the run.
pub fn run(seed: u64, count: u64) -> Result<Report, String> {
    let mut report = Report::default();
    for index in 0..count {
        let mut rng = Rng::new(seed, index);
        let told = |what: String| format!("seed {seed} hall {index}: {what}");
        if let Some(hall) = Hall::random(&mut rng).map_err(told)? {
            report.halls += 1;
            report.changed += hall.changed;
            let add = |seen: &Traffic| report.add(&hall, index, seen);
            let ran = climb(&mut rng, &hall, |trial| trial, add);
            ran.map_err(|failure| told(failure.to_string()))?;
        }
    }
    Ok(report)
}

/// The mistake of leaving the best-effort frame out of Y.
pub const WITHOUT_BEST_EFFORT: Count = Count {
    link: |queue, _| Link {
        best_effort_frame: 0,
        ..queue.of_link()
    },
    ..Count::RIGHT
};

/// The mistake of taking the source's burst at every hop.
pub const WITHOUT_GROWTH: Count = Count {
    bursts: Slips {
        growth: Growth::Never,
        ..Slips::NONE
    },
    ..Count::RIGHT
};

/// The same search over halls tightened by bounds that may be wrong: what it finds in each of so many. `sent` may take
/// something out of what is sent.
pub fn run_by(
    seed: u64,
    count: u64,
    bounds: Bounds,
    sent: fn(Trial) -> Trial,
) -> impl Iterator<Item = Result<Option<Fault>, String>> {
    (0..count).filter_map(move |index| {
        let mut rng = Rng::new(seed, index);
        let hall = Hall::by(&mut rng, bounds);
        if !hall.is_short() {
            return None;
        }
        Some(match climb(&mut rng, &hall, sent, |_| ()) {
            Ok(()) => Ok(None),
            Err(Failure::Limit { fault, .. }) => Ok(Some(fault)),
            Err(other) => Err(format!("seed {seed} hall {index}: {other}")),
        })
    })
}

fn climb(
    rng: &mut Rng,
    hall: &Hall,
    sent: fn(Trial) -> Trial,
    mut showed: impl FnMut(&Traffic),
) -> Result<(), Failure> {
    let (target, mut best_trial) = begin(rng, hall);
    let by_stay = !rng.once_in(3);
    let mut best = 0;
    for _ in 0..CLIMB {
        let trial = if best > 0 {
            best_trial.changed(rng, hall)
        } else {
            best_trial.clone()
        };
        let trial = sent(trial);
        let seen = hall.run(&trial, rng.draw())?;
        showed(&seen);
        let Seen { stay, backlog } = seen.queues[target];
        let reached = if by_stay { stay } else { backlog };
        if reached >= best {
            best = reached;
            best_trial = trial;
        }
    }
    Ok(())
}

/// A queue that carries a flow, and how the sources send at first.
fn begin(rng: &mut Rng, hall: &Hall) -> (usize, Trial) {
    if rng.once_in(3) {
        let most = most_grown(hall);
        return (most, Trial::bunched(rng, hall, hall.queues[most].link));
    }
    let target = target(rng, hall);
    let trial = if rng.once_in(2) {
        Trial::aligned(rng, hall, &hall.queues[target])
    } else {
        Trial::random(rng, hall)
    };
    (target, trial)
}

/// The queue of whose delay bound the growth of bursts is the greatest part.
fn most_grown(hall: &Hall) -> usize {
    let part = |&queue: &usize| {
        let [grown, source] =
            [Count::RIGHT, WITHOUT_GROWTH].map(|count| hall.delay_by(queue, count));
        1_000 * (grown - source) / grown
    };
    let queues = (0..hall.queues.len()).filter(|&queue| hall.carries(queue));
    queues.max_by_key(part).unwrap_or(0)
}

/// A queue that carries a flow; mostly one of a link with a best-effort frame, where there is one.
fn target(rng: &mut Rng, hall: &Hall) -> usize {
    let queues = (0..hall.queues.len()).filter(|&queue| hall.carries(queue));
    let (shared, alone): (Vec<usize>, Vec<usize>) =
        queues.partition(|&queue| hall.queues[queue].best_effort_frame > 0);
    let from_shared = alone.is_empty() || !shared.is_empty() && !rng.once_in(3);
    rng.pick(if from_shared { &shared } else { &alone })
}
