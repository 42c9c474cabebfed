//! What a run showed of each queue, and the verdict.

use super::frames::{BestEffort, Stay};
use super::hall::Hall;
use super::watch::Watch;
use crate::numbers::commas;
use plain::table::Queue;

/// The most that was seen of a queue.
#[derive(Clone, Copy, Debug, Default, PartialEq)]
pub struct Seen {
    pub stays: u64,
    /// The first of its longest stays.
    pub longest: Option<Stay>,
    pub late: u64,
    /// The first of those that came with the most left of a laptop's frame under way.
    pub behind: Option<Stay>,
    /// Bytes, and the first instant with so many.
    pub backlog: u64,
    pub fullest_at: u64,
}

impl Seen {
    pub fn stay(&self) -> u64 {
        self.longest.map_or(0, |stay| stay.length())
    }
}

/// Looks on and keeps each queue's figures.
pub struct Figures<'a> {
    queues: &'a [Queue],
    pub seen: Vec<Seen>,
    /// The last instant at which a frame reached a next queue or its destination, or a laptop's had left its link.
    pub end: u64,
    /// The first laptops' frames that links took: where there are more than are told, one more.
    pub laptops: Vec<BestEffort>,
}

/// With more laptops' frames none is told by itself.
pub const MOST_TOLD: usize = 20;

impl Watch for Figures<'_> {
    fn stay(&mut self, stay: &Stay) {
        let queue = &self.queues[stay.queue];
        self.end = self.end.max(stay.gone + queue.fixed_delay);
        let seen = &mut self.seen[stay.queue];
        seen.stays += 1;
        // Late: not gone at the instant by which the threshold has passed.
        seen.late += u64::from(stay.length() > queue.threshold);
        if seen
            .longest
            .is_none_or(|longest| stay.length() > longest.length())
        {
            seen.longest = Some(*stay);
        }
        let left = |stay: &Stay| stay.frame.behind.map_or(0, |behind| behind.left);
        if left(stay) > seen.behind.as_ref().map_or(0, left) {
            seen.behind = Some(*stay);
        }
    }

    fn queue(&mut self, queue: usize, instant: u64, _frames: u64, bytes: u64) {
        let seen = &mut self.seen[queue];
        if bytes > seen.backlog {
            seen.backlog = bytes;
            seen.fullest_at = instant;
        }
    }

    fn best_effort(&mut self, frame: &BestEffort) {
        self.end = self.end.max(frame.gone);
        if self.laptops.len() <= MOST_TOLD {
            self.laptops.push(*frame);
        }
    }
}

impl<'a> Figures<'a> {
    pub fn new(queues: &'a [Queue]) -> Figures<'a> {
        Figures {
            queues,
            seen: vec![Seen::default(); queues.len()],
            end: 0,
            laptops: Vec::new(),
        }
    }
}

/// Whether `a` of `b` is more than `c` of `d`.
pub fn greater_share(a: u64, b: u64, c: u64, d: u64) -> bool {
    u128::from(a) * u128::from(d) > u128::from(c) * u128::from(b)
}

/// The stay that uses most of its threshold; the first such queue.
pub fn closest(queues: &[Queue], seen: &[Seen]) -> Option<Stay> {
    let longest = seen.iter().filter_map(|seen| seen.longest);
    longest.reduce(|best, stay| {
        let (of_best, of_stay) = (queues[best.queue].threshold, queues[stay.queue].threshold);
        match greater_share(stay.length(), of_stay, best.length(), of_best) {
            true => stay,
            false => best,
        }
    })
}

/// What the run comes to.
#[derive(Clone, Debug, PartialEq)]
pub struct Verdict {
    pub late: u64,
    pub closest: Option<Stay>,
    /// Queues that held more than their buffer.
    pub exceeded: Vec<usize>,
}

impl Verdict {
    pub fn of(queues: &[Queue], seen: &[Seen]) -> Verdict {
        let over = |&queue: &usize| seen[queue].backlog > queues[queue].buffer;
        Verdict {
            late: seen.iter().map(|seen| seen.late).sum(),
            closest: closest(queues, seen),
            exceeded: (0..queues.len()).filter(over).collect(),
        }
    }

    /// No frame late, no buffer exceeded.
    pub fn kept(&self) -> bool {
        self.late == 0 && self.exceeded.is_empty()
    }

    pub fn words(&self, hall: &Hall, seen: &[Seen]) -> String {
        let Some(closest) = self.closest else {
            return "no flow's frame sent".to_string();
        };
        let place = format!(
            "{}, {} of {} µs",
            hall.place(closest.queue),
            commas(closest.length()),
            commas(hall.queues[closest.queue].threshold)
        );
        let mut words = match self.late {
            0 => format!("no frame late; closest {place}"),
            1 => format!("a frame late: {place}"),
            late => format!("a frame late: {place}; {} late stays in all", commas(late)),
        };
        for &queue in &self.exceeded {
            words += &format!(
                "; buffer exceeded at {}, {} of {} bytes",
                hall.place(queue),
                commas(seen[queue].backlog),
                commas(hall.queues[queue].buffer)
            );
        }
        words
    }
}
