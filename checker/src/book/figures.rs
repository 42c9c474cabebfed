//! The figures of the queues, and 21, 22 and 23.
//!
//! 64 bits are enough. A burst at a hop is below 2^31 and 256 flows meet at a link at most, so burst
//! sums and Y together stay below 2^40; a rate sum that passed 21 is at most 10,000,000. Then
//! 8000 × (Y + burst sum) and rate sum × Y are below 2^64, and so are Res × threshold and Res × buffer.

use super::{Link, Queue, Slot, Table, LEVELS, QUEUES};
use crate::answer::Answer;

/// Rate sum, burst sum and largest frame of a queue; all 0 where it carries no flow.
#[derive(Clone, Copy, Debug, PartialEq)]
pub struct Aggregate {
    pub rate: u64,
    pub burst: u64,
    pub frame: u64,
}

impl Aggregate {
    pub const NONE: Aggregate = Aggregate {
        rate: 0,
        burst: 0,
        frame: 0,
    };

    /// With a flow counted in, which has this burst here.
    #[inline]
    fn with_flow(self, flow: &Slot, burst: u64) -> Aggregate {
        Aggregate {
            rate: self.rate + u64::from(flow.rate),
            burst: self.burst + burst,
            frame: self.frame.max(u64::from(flow.frame)),
        }
    }

    /// With a flow's share by its new rate and burst in place of the old; its frame is the same.
    #[inline]
    fn with_change(self, old: &Slot, new: &Slot, earlier: u64) -> Aggregate {
        Aggregate {
            rate: self.rate - u64::from(old.rate) + u64::from(new.rate),
            burst: self.burst - burst_at_hop(old, earlier) + burst_at_hop(new, earlier),
            frame: self.frame,
        }
    }
}

/// The shortest time in which a link sends a frame, µs: the smallest has 672 bits.
#[inline(always)]
fn shortest_sending(speed: u32) -> u32 {
    672_u32.div_ceil(speed)
}

/// A hop's part of S for the hops after it, µs.
#[inline(always)]
fn hop_growth(threshold: u32, speed: u32) -> u32 {
    threshold.saturating_sub(shortest_sending(speed))
}

/// The hops of a path as queue numbers, each with S, the parts of the hops before it summed.
#[inline(always)]
fn growths<'a>(path: &'a [u32], table: &'a Table) -> impl Iterator<Item = (usize, u64)> + 'a {
    let mut sum = 0;
    path.iter().map(move |&entry| {
        let (entry, earlier) = (entry as usize, sum);
        let (queue, link) = (&table.queues[entry], &table.links[entry / LEVELS]);
        sum += u64::from(hop_growth(queue.threshold, link.speed));
        (entry, earlier)
    })
}

#[inline(always)]
fn burst_at_hop(flow: &Slot, earlier: u64) -> u64 {
    u64::from(flow.burst) + (u64::from(flow.rate) * earlier).div_ceil(8000)
}

/// The hops of a path as queue numbers, each with the flow's burst there.
#[inline(always)]
fn bursts<'a>(
    flow: &'a Slot,
    path: &'a [u32],
    table: &'a Table,
) -> impl Iterator<Item = (usize, u64)> + 'a {
    growths(path, table).map(|(entry, earlier)| (entry, burst_at_hop(flow, earlier)))
}

/// 21, 22 or 23 at a link with these figures, and the level named.
#[inline]
fn check_link(
    link: &Link,
    queues: &[Queue],
    levels: &[Aggregate; LEVELS],
) -> Result<(), (u32, u32)> {
    let mut residual = 1000 * u64::from(link.speed);
    if residual <= levels.iter().map(|level| level.rate).sum() {
        return Err((21, 0));
    }
    // A best-effort frame is below every level, the last one too.
    let mut below = [u64::from(link.best_effort_frame); LEVELS];
    for p in (1..LEVELS).rev() {
        below[p - 1] = below[p].max(levels[p].frame);
    }
    let mut above = 0;
    for ((number, own), (queue, below)) in (1..).zip(levels).zip(queues.iter().zip(below)) {
        if own.frame == 0 {
            continue;
        }
        let y = above + below + own.frame;
        // ceil(a / b) is at most t exactly where a is at most t × b.
        if u64::from(queue.threshold) * residual < 8000 * (y + own.burst) {
            return Err((22, number));
        }
        let room = u64::from(queue.buffer).checked_sub(own.burst);
        if room.is_none_or(|room| room * residual < own.rate * y) {
            return Err((23, number));
        }
        residual -= own.rate;
        above += own.burst;
    }
    Ok(())
}

/// 21, 22 and 23 link by link along a path, with the flow counted in.
#[inline]
pub fn check_links(
    flow: &Slot,
    path: &[u32],
    table: &Table,
    sums: &[Aggregate; QUEUES],
) -> Result<(), Answer> {
    for (entry, burst) in bursts(flow, path, table) {
        check_at(entry, |own| own.with_flow(flow, burst), table, sums)?;
    }
    Ok(())
}

/// The same with a held flow counted by its new rate and burst in place of the old.
#[inline]
pub fn check_change(
    old: &Slot,
    new: &Slot,
    path: &[u32],
    table: &Table,
    sums: &[Aggregate; QUEUES],
) -> Result<(), Answer> {
    for (entry, earlier) in growths(path, table) {
        let counted = |own: Aggregate| own.with_change(old, new, earlier);
        check_at(entry, counted, table, sums)?;
    }
    Ok(())
}

/// 21, 22 and 23 at the link of a queue whose own figures are counted so.
#[inline(always)]
fn check_at(
    entry: usize,
    counted: impl FnOnce(Aggregate) -> Aggregate,
    table: &Table,
    sums: &[Aggregate; QUEUES],
) -> Result<(), Answer> {
    let (link, level) = (entry / LEVELS, entry % LEVELS);
    let (links, _) = sums.as_chunks::<LEVELS>();
    let mut levels = links[link];
    levels[level] = counted(levels[level]);
    let queues = &table.queues[LEVELS * link..LEVELS * (link + 1)];
    match check_link(&table.links[link], queues, &levels) {
        Ok(()) => Ok(()),
        Err((code, level)) => Err(Answer::at(code, link as u32 + 1, level)),
    }
}

/// Counts a flow in at each queue of its path.
#[inline]
pub fn add_path(flow: &Slot, path: &[u32], table: &Table, sums: &mut [Aggregate; QUEUES]) {
    for (entry, burst) in bursts(flow, path, table) {
        sums[entry] = sums[entry].with_flow(flow, burst);
    }
}

/// Counts a held flow by its new rate and burst in place of the old at each queue of its path.
#[inline]
pub fn change_path(
    old: &Slot,
    new: &Slot,
    path: &[u32],
    table: &Table,
    sums: &mut [Aggregate; QUEUES],
) {
    for (entry, earlier) in growths(path, table) {
        sums[entry] = sums[entry].with_change(old, new, earlier);
    }
}

/// Takes a flow out at each queue of its path. True where a queue that still carries flows may have
/// lost its largest frame, which is 0 then until the frames are raised again.
#[inline]
pub fn remove_path(
    flow: &Slot,
    path: &[u32],
    table: &Table,
    sums: &mut [Aggregate; QUEUES],
) -> bool {
    let mut again = false;
    for (entry, burst) in bursts(flow, path, table) {
        let own = &mut sums[entry];
        own.rate -= u64::from(flow.rate);
        own.burst -= burst;
        if own.rate == 0 {
            own.frame = 0;
        } else if own.frame <= u64::from(flow.frame) {
            own.frame = 0;
            again = true;
        }
    }
    again
}

/// Raises the largest frame at each queue of a path to at least this one.
#[inline]
pub fn raise_path(frame: u32, path: &[u32], sums: &mut [Aggregate; QUEUES]) {
    for &entry in path {
        let own = &mut sums[entry as usize];
        if own.frame < u64::from(frame) {
            own.frame = u64::from(frame);
        }
    }
}

/// Whether every link meets 21 to 23 with these figures, which are those of flows in range.
pub fn links_meet(table: &Table, sums: &[Aggregate; QUEUES]) -> bool {
    let (levels, _) = sums.as_chunks::<LEVELS>();
    table.links[..table.count]
        .iter()
        .zip(table.queues.chunks_exact(LEVELS))
        .zip(levels)
        .all(|((link, queues), levels)| check_link(link, queues, levels).is_ok())
}
