//! Document 01's "conforms": over instants s to s+t inclusive, 8000 × bytes is at most
//! 8000 × b + r × t; and frames from 84 bytes to the flow's largest. A laptop's are no longer than
//! its link's best-effort frame.

use super::frames::{Laptop, Send};
use crate::numbers::commas;
use plain::orders::{Flow, SMALLEST_FRAME};
use plain::table::Queue;
use std::fmt;

/// The first frame by which a source doesn't conform.
#[derive(Clone, Debug, PartialEq)]
pub struct Breach {
    pub line: usize,
    pub who: Who,
    pub what: What,
}

#[derive(Clone, Debug, PartialEq)]
pub enum Who {
    /// The flow's number.
    Flow(u64),
    /// The number of the link on which laptops send.
    Laptop(u64),
}

#[derive(Clone, Debug, PartialEq)]
pub enum What {
    Size {
        bytes: u64,
        largest: u64,
    },
    /// A laptop's frame that the table doesn't allow; 0 is none.
    TooLong {
        bytes: u64,
        best_effort_frame: u64,
    },
    /// 8000 × the bytes of this window are above what it allows.
    Window {
        from: u64,
        to: u64,
        used: u64,
        allowed: u64,
        may_go: u64,
    },
}

impl fmt::Display for Breach {
    fn fmt(&self, out: &mut fmt::Formatter) -> fmt::Result {
        write!(out, "line {}: ", self.line)?;
        match self.who {
            Who::Flow(number) => write!(out, "flow {number}")?,
            Who::Laptop(link) => write!(out, "laptop on link {link}")?,
        }
        match self.what {
            What::Size { bytes, largest } => write!(
                out,
                ": a frame of {} bytes; its frames have {SMALLEST_FRAME} to {}",
                commas(bytes),
                commas(largest)
            ),
            What::TooLong {
                bytes,
                best_effort_frame,
            } => too_long(out, bytes, best_effort_frame),
            What::Window {
                from,
                to,
                used,
                allowed,
                may_go,
            } => write!(
                out,
                ", instants {} to {}: {} above {}; may go at {}",
                commas(from),
                commas(to),
                commas(used),
                commas(allowed),
                commas(may_go)
            ),
        }
    }
}

fn too_long(out: &mut fmt::Formatter, bytes: u64, most: u64) -> fmt::Result {
    write!(out, ": a frame of {} bytes; ", commas(bytes))?;
    match most {
        0 => write!(
            out,
            "no laptop may be plugged in here: the table gives the link no best-effort frame"
        ),
        most => write!(
            out,
            "the table gives the link a best-effort frame of {}",
            commas(most)
        ),
    }
}

/// A flow's source so far: the bytes that it sent, and the window that leaves the least. A window
/// starts at best at an instant with a frame; 8000 × its bytes less what its length earns is the
/// same difference at its end less that at its start, so the start with the least is the worst.
#[derive(Clone, Copy)]
struct Source {
    bytes: i128,
    least: Option<i128>,
    start: u64,
    bytes_at_start: i128,
    broken: bool,
}

impl Source {
    /// What the next frame breaks, if anything.
    fn send(&mut self, flow: &Flow, send: &Send) -> Option<What> {
        if !(SMALLEST_FRAME..=flow.frame).contains(&send.bytes) {
            return Some(What::Size {
                bytes: send.bytes,
                largest: flow.frame,
            });
        }
        let (rate, full) = (i128::from(flow.rate), 8000 * i128::from(flow.burst));
        let earned = rate * i128::from(send.instant);
        let here = 8000 * self.bytes - earned;
        if self.least.is_none_or(|least| here <= least) {
            self.least = Some(here);
            self.start = send.instant;
            self.bytes_at_start = self.bytes;
        }
        self.bytes += i128::from(send.bytes);
        let used = 8000 * (self.bytes - self.bytes_at_start);
        let allowed = full + rate * i128::from(send.instant - self.start);
        let above = used - allowed;
        (above > 0).then(|| What::Window {
            from: self.start,
            to: send.instant,
            used: used as u64,
            allowed: allowed as u64,
            may_go: send.instant + ((above + rate - 1) / rate) as u64,
        })
    }
}

/// The first breach of each source, by flow; `sends` is sorted by instant.
pub fn breaches(flows: &[Flow], sends: &[Send]) -> Vec<Breach> {
    let fresh = Source {
        bytes: 0,
        least: None,
        start: 0,
        bytes_at_start: 0,
        broken: false,
    };
    let mut sources = vec![fresh; flows.len()];
    let mut found = Vec::new();
    for send in sends {
        let (flow, source) = (&flows[send.flow], &mut sources[send.flow]);
        if source.broken {
            continue;
        }
        if let Some(what) = source.send(flow, send) {
            source.broken = true;
            found.push(Breach {
                line: send.line,
                who: Who::Flow(flow.number),
                what,
            });
        }
    }
    found.sort_by_key(|breach| breach.line);
    found
}

/// The first laptop's frame on each link that is longer than the link's field.
pub fn laptop_breaches(queues: &[Queue], laptops: &[Laptop]) -> Vec<Breach> {
    let mut found: Vec<Breach> = Vec::new();
    for laptop in laptops {
        let number = laptop.link as u64 + 1;
        let of_link = queues.iter().find(|queue| queue.link == number);
        let best_effort_frame = of_link.map_or(0, |queue| queue.best_effort_frame);
        let who = Who::Laptop(number);
        let known = found.iter().any(|breach| breach.who == who);
        if laptop.bytes > best_effort_frame && !known {
            found.push(Breach {
                line: laptop.line,
                who,
                what: What::TooLong {
                    bytes: laptop.bytes,
                    best_effort_frame,
                },
            });
        }
    }
    found
}
