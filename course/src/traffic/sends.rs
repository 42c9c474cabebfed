//! SENDS: what the sources and the laptops send, a line for each frame, group of frames or greedy source.

use super::frames::{Laptop, Send, Sends};
use super::slots::THOUSAND;
use super::words::{Mistake, Words, MOST_INSTANT};
use crate::numbers::commas;
use crate::rows::rows;
use halls::rng::Rng;
use halls::sources::{sends, Pace, Pattern, Sizes};
use plain::orders::Flow;
use plain::table::Queue;

const MOST_BYTES: u64 = 65_535;
/// No laptop's frame is longer, not even where it doesn't conform.
const MOST_LAPTOP_BYTES: u64 = 10_000;
/// What is held in memory at once.
pub const MOST_FRAMES: u64 = 5_000_000;

#[derive(Clone, Copy, Debug, PartialEq)]
pub enum What {
    /// Frames of so many bytes, so many µs apart.
    Group { bytes: u64, count: u64, every: u64 },
    /// The worst its bucket allows, up to an instant or for as long as the rest of the run.
    Greedy { to: Option<u64> },
}

/// A line of SENDS about a flow.
#[derive(Clone, Copy, Debug, PartialEq)]
pub struct Entry {
    pub line: usize,
    pub flow: usize,
    pub from: u64,
    pub what: What,
}

/// The lines of SENDS: those about flows, and the laptops'.
#[derive(Clone, Debug, Default, PartialEq)]
pub struct Lines {
    pub entries: Vec<Entry>,
    pub laptops: Vec<Laptop>,
}

/// The lines of SENDS over the held flows and the table's links.
pub fn read(text: &str, flows: &[Flow], queues: &[Queue]) -> Result<Lines, Mistake> {
    let mut lines = Lines::default();
    for (line, words) in rows(text) {
        let mut words = Words::of(line, words);
        if words.keyword("laptop") {
            lines.laptops.push(read_laptop(&mut words, queues)?);
        } else if words.keyword("greedy") {
            lines.entries.push(read_greedy(&mut words, flows)?);
        } else {
            lines.entries.push(read_group(&mut words, flows)?);
        }
        words.end()?;
    }
    Ok(lines)
}

fn read_laptop(words: &mut Words, queues: &[Queue]) -> Result<Laptop, Mistake> {
    Ok(Laptop {
        link: words.link(queues)?,
        ready: words.moment()?,
        bytes: words.number("bytes", 1, MOST_LAPTOP_BYTES)?,
        line: words.line,
    })
}

fn read_greedy(words: &mut Words, flows: &[Flow]) -> Result<Entry, Mistake> {
    let flow = words.flow(flows)?;
    if !words.keyword("from") {
        return words.mistake("`from INSTANT` is expected here".to_string());
    }
    let from = words.number("instant", 0, MOST_INSTANT)?;
    let to = match words.keyword("to") {
        true => Some(words.number("instant", from, MOST_INSTANT)?),
        false => None,
    };
    Ok(Entry {
        line: words.line,
        flow,
        from,
        what: What::Greedy { to },
    })
}

fn read_group(words: &mut Words, flows: &[Flow]) -> Result<Entry, Mistake> {
    let from = words.number("instant", 0, MOST_INSTANT)?;
    let flow = words.flow(flows)?;
    let bytes = words.number("bytes", 1, MOST_BYTES)?;
    let (mut count, mut every) = (1, 0);
    if words.keyword("x") {
        count = words.number("count", 1, MOST_FRAMES)?;
        if words.keyword("every") {
            every = words.number("micros", 0, (MOST_INSTANT - from) / count)?;
        }
    }
    Ok(Entry {
        line: words.line,
        flow,
        from,
        what: What::Group {
            bytes,
            count,
            every,
        },
    })
}

impl Entry {
    /// The last instant that the line names.
    fn last(&self) -> u64 {
        match self.what {
            What::Group { count, every, .. } => self.from + (count - 1) * every,
            What::Greedy { to } => to.unwrap_or(self.from),
        }
    }

    /// No fewer frames than it stands for.
    fn frames(&self, flow: &Flow, horizon: u64) -> u64 {
        match self.what {
            What::Group { count, .. } => count,
            What::Greedy { to } => {
                let span = to.unwrap_or(horizon) - self.from;
                let bytes =
                    u128::from(flow.rate) * u128::from(span) / 8000 + u128::from(flow.burst);
                (bytes / u128::from(flow.frame) + 2) as u64
            }
        }
    }

    fn expand(&self, flow: &Flow, horizon: u64, list: &mut Vec<Send>) {
        let of_line = |instant, bytes| Send {
            instant,
            flow: self.flow,
            bytes,
            line: self.line,
        };
        match self.what {
            What::Group {
                bytes,
                count,
                every,
            } => list.extend((0..count).map(|frame| of_line(self.from + frame * every, bytes))),
            What::Greedy { to } => {
                let pattern = Pattern {
                    start: self.from,
                    sizes: Sizes::Largest,
                    pace: Pace::Greedy,
                };
                // Frames of the largest size leave nothing to chance.
                let mut rng = Rng::new(0, 0);
                let until = to.unwrap_or(horizon);
                let frames = sends(&mut rng, self.flow, flow, pattern, until);
                list.extend(frames.iter().map(|send| of_line(send.instant, send.bytes)));
            }
        }
    }
}

impl Lines {
    /// A greedy source without an end goes on until this instant: the last one that SENDS names, and
    /// after it twice the longest sum of thresholds and fixed delays along a path.
    fn horizon(&self, span: u64) -> u64 {
        let laptops = self.laptops.iter();
        let ready = laptops.map(|laptop| laptop.ready.div_ceil(THOUSAND));
        let named = self.entries.iter().map(Entry::last).chain(ready);
        named.max().unwrap_or(0) + 2 * span
    }

    /// Where there are more frames than are held at once.
    fn too_many(&self, flows: &[Flow], horizon: u64) -> Option<Mistake> {
        let of_flows = self.entries.iter().map(|entry| {
            let frames = entry.frames(&flows[entry.flow], horizon);
            (entry.line, frames)
        });
        let laptops = self.laptops.iter().map(|laptop| (laptop.line, 1));
        let mut sum = 0u64;
        let mut all = of_flows.chain(laptops);
        let past = |(_, frames): &(usize, u64)| {
            sum = sum.saturating_add(*frames);
            sum > MOST_FRAMES
        };
        let (line, _) = all.find(past)?;
        Some(Mistake {
            line,
            column: 1,
            what: format!("more than {} frames up to this line", commas(MOST_FRAMES)),
        })
    }
}

/// All frames by their time, those of one instant in the order of the lines.
pub fn expand(lines: &Lines, flows: &[Flow], span: u64) -> Result<Sends, Mistake> {
    let horizon = lines.horizon(span);
    if let Some(mistake) = lines.too_many(flows, horizon) {
        return Err(mistake);
    }
    let mut all = Sends {
        frames: Vec::new(),
        laptops: lines.laptops.clone(),
    };
    for entry in &lines.entries {
        entry.expand(&flows[entry.flow], horizon, &mut all.frames);
    }
    all.frames.sort_by_key(|send| send.instant);
    all.laptops.sort_by_key(|laptop| laptop.ready);
    Ok(all)
}
