//! The part of a run that is drawn, and what is kept of it.

use crate::traffic::frames::{BestEffort, Stay};
use crate::traffic::hall::Hall;
use crate::traffic::slots::THOUSAND;
use crate::traffic::watch::Watch;

/// More frames than this in one lane can't be told apart.
const MOST_DRAWN: usize = 1_000;
const STEPS_ACROSS: u64 = 1_200;

/// From one instant to another, both included.
#[derive(Clone, Copy, Debug, PartialEq)]
pub struct Stretch {
    pub from: u64,
    pub to: u64,
}

impl Stretch {
    /// The whole of a short run, the closest frame's threshold included; else what lies around that
    /// frame, half a threshold before and after.
    pub fn around(hall: &Hall, closest: Option<&Stay>, whole: Stretch) -> Stretch {
        let Some(stay) = closest else {
            return Stretch { from: 0, to: 1 };
        };
        let threshold = hall.queues[stay.queue].threshold;
        let half = threshold / 2 + 1;
        let whole = Stretch {
            to: whole
                .to
                .max(stay.frame.came + threshold + threshold / 50 + 1),
            ..whole
        };
        let near = Stretch {
            from: stay.frame.came.saturating_sub(half),
            to: stay.gone + half,
        };
        match whole.to - whole.from <= 2 * (near.to - near.from) {
            true => whole,
            false => near,
        }
    }

    fn meets(&self, from: u64, to: u64) -> bool {
        from <= self.to && to >= self.from
    }
}

/// What the stretch shows of a queue.
#[derive(Clone, Default)]
pub struct Shown {
    pub stays: Vec<Stay>,
    /// Stays that there was no room for.
    pub more: usize,
    /// Bytes from an instant on; the first one may lie before the stretch.
    pub backlog: Vec<(u64, u64)>,
}

/// Looks on and keeps what the stretch shows; the closest frame in any case.
pub struct Recorder<'a> {
    pub stretch: Stretch,
    hall: &'a Hall,
    closest: Option<Stay>,
    pub shown: Vec<Shown>,
    /// Laptops' frames, by link, and those that there was no room for.
    pub laptops: Vec<Vec<BestEffort>>,
    pub more_laptops: Vec<usize>,
}

impl Recorder<'_> {
    pub fn new(stretch: Stretch, hall: &Hall, closest: Option<Stay>) -> Recorder<'_> {
        Recorder {
            stretch,
            hall,
            closest,
            shown: vec![Shown::default(); hall.queues.len()],
            laptops: vec![Vec::new(); hall.links().len()],
            more_laptops: vec![0; hall.links().len()],
        }
    }

    /// Whether a laptop's frame is shown.
    pub fn has_laptops(&self) -> bool {
        self.laptops.iter().any(|frames| !frames.is_empty())
    }
}

impl Watch for Recorder<'_> {
    fn stay(&mut self, stay: &Stay) {
        let reached = self.hall.reached(stay);
        if !self.stretch.meets(stay.frame.came, reached) {
            return;
        }
        let shown = &mut self.shown[stay.queue];
        match shown.stays.len() < MOST_DRAWN || self.closest.as_ref() == Some(stay) {
            true => shown.stays.push(*stay),
            false => shown.more += 1,
        }
    }

    fn best_effort(&mut self, frame: &BestEffort) {
        let link = frame.laptop.link;
        if !self
            .stretch
            .meets(frame.laptop.ready / THOUSAND, frame.gone)
        {
            return;
        }
        match self.laptops[link].len() < MOST_DRAWN {
            true => self.laptops[link].push(*frame),
            false => self.more_laptops[link] += 1,
        }
    }

    fn queue(&mut self, queue: usize, instant: u64, _frames: u64, bytes: u64) {
        let steps = &mut self.shown[queue].backlog;
        if instant > self.stretch.to {
            return;
        }
        if instant <= self.stretch.from {
            steps.clear();
        }
        // Closer together than a pixel: the greatest and the last of them.
        let grain = (self.stretch.to - self.stretch.from) / STEPS_ACROSS + 1;
        match steps.as_mut_slice() {
            [.., most, last] if most.0 / grain == instant / grain => {
                most.1 = most.1.max(last.1);
                *last = (instant, bytes);
            }
            _ => steps.push((instant, bytes)),
        }
    }
}
