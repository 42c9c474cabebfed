//! Who looks on at a run: several at once, and progress on a terminal.

use super::frames::{BestEffort, Stay};
use crate::numbers::commas;
use std::io::{IsTerminal, Write};
use std::time::{Duration, Instant};

/// Who looks on.
pub trait Watch {
    /// A frame has left.
    fn stay(&mut self, _stay: &Stay) {}
    /// A queue that a frame left or reached at this instant, after the instant's arrivals. A frame
    /// under way counts whole.
    fn queue(&mut self, _queue: usize, _instant: u64, _frames: u64, _bytes: u64) {}
    /// A free link takes a laptop's frame.
    fn best_effort(&mut self, _frame: &BestEffort) {}
    /// An instant is done; so many frames of the sources have been added so far.
    fn instant(&mut self, _instant: u64, _sent: usize) {}
}

impl<A: Watch, B: Watch> Watch for (A, B) {
    fn stay(&mut self, stay: &Stay) {
        self.0.stay(stay);
        self.1.stay(stay);
    }

    fn queue(&mut self, queue: usize, instant: u64, frames: u64, bytes: u64) {
        self.0.queue(queue, instant, frames, bytes);
        self.1.queue(queue, instant, frames, bytes);
    }

    fn best_effort(&mut self, frame: &BestEffort) {
        self.0.best_effort(frame);
        self.1.best_effort(frame);
    }

    fn instant(&mut self, instant: u64, sent: usize) {
        self.0.instant(instant, sent);
        self.1.instant(instant, sent);
    }
}

impl<W: Watch> Watch for &mut W {
    fn stay(&mut self, stay: &Stay) {
        (**self).stay(stay);
    }

    fn queue(&mut self, queue: usize, instant: u64, frames: u64, bytes: u64) {
        (**self).queue(queue, instant, frames, bytes);
    }

    fn best_effort(&mut self, frame: &BestEffort) {
        (**self).best_effort(frame);
    }

    fn instant(&mut self, instant: u64, sent: usize) {
        (**self).instant(instant, sent);
    }
}

impl<W: Watch> Watch for Option<W> {
    fn stay(&mut self, stay: &Stay) {
        if let Some(watch) = self {
            watch.stay(stay);
        }
    }

    fn queue(&mut self, queue: usize, instant: u64, frames: u64, bytes: u64) {
        if let Some(watch) = self {
            watch.queue(queue, instant, frames, bytes);
        }
    }

    fn best_effort(&mut self, frame: &BestEffort) {
        if let Some(watch) = self {
            watch.best_effort(frame);
        }
    }

    fn instant(&mut self, instant: u64, sent: usize) {
        if let Some(watch) = self {
            watch.instant(instant, sent);
        }
    }
}

const BETWEEN_LINES: Duration = Duration::from_millis(300);
/// Looking at the clock costs more than an instant of the run.
const INSTANTS_BETWEEN_LOOKS: u32 = 4096;

/// Shows how far a long run is, where standard error is a terminal.
pub struct Progress {
    frames: usize,
    last: Instant,
    skipped: u32,
    shown: bool,
}

impl Progress {
    pub fn on_terminal(frames: usize) -> Option<Progress> {
        std::io::stderr().is_terminal().then(|| Progress {
            frames,
            last: Instant::now(),
            skipped: 0,
            shown: false,
        })
    }
}

impl Watch for Progress {
    fn instant(&mut self, instant: u64, sent: usize) {
        self.skipped += 1;
        if self.skipped < INSTANTS_BETWEEN_LOOKS || self.last.elapsed() < BETWEEN_LINES {
            return;
        }
        self.skipped = 0;
        self.last = Instant::now();
        self.shown = true;
        let _ = write!(
            std::io::stderr(),
            "\rinstant {}, {} of {} frames sent ",
            commas(instant),
            commas(sent),
            commas(self.frames)
        );
    }
}

impl Drop for Progress {
    fn drop(&mut self) {
        if self.shown {
            let _ = write!(std::io::stderr(), "\r{:60}\r", "");
        }
    }
}
