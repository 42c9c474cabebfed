//! What the machine itself adds: how long the kernel leaves a link idle though a frame waits, measured on the idle link.

use super::plan::Turn;
use super::run::{round, Sender, Way, Wires};
use super::scale::{Nanos, Scale};
use super::source::Source;
use plain::orders::Flow;

/// Frames go in pairs: the first finds the link free, the second waits for the kernel's timer.
const PAIR: u64 = 2;
/// So many pairs on each link, all links at once; fewer where they would take longer than this, but not below the fewest.
const PAIRS: u64 = 40;
const TIME: Nanos = 3_000_000_000;
const FEWEST: u64 = 3;

/// A queue of a link, and the largest frame that crosses the link.
#[derive(Clone, Copy, Debug, PartialEq)]
pub struct Probe {
    pub queue: usize,
    pub largest: u64,
}

/// The longest delay seen on each link, 0 where none is probed. A link that lets go of each second frame before the first is
/// sent is faster than it should be; where its timer is late by more than that, it can't be told.
pub fn measure<W: Wires>(
    wires: &mut W,
    way: Way,
    probes: &[Probe],
    names: &mut u32,
) -> Result<Vec<Nanos>, String> {
    let link = |queue: usize| way.network.sender_of[queue];
    let links = way.network.senders.len();
    let (mut noise, mut least_early) = (vec![0; links], vec![Nanos::MAX; links]);
    // The first pair only wakes the kernel's receive times.
    for counts in (0..=pairs(way, probes)).map(|turn| turn > 0) {
        let now = wires.now();
        let senders = probes.iter().map(|probe| sender(probe, way.scale, now));
        let stays = round(wires, way, senders.collect(), names)?;
        for stay in stays.iter().filter(|_| counts) {
            let link = link(stay.queue);
            noise[link] = stay.late.max(noise[link]);
            if stay.number == PAIR {
                least_early[link] = stay.early.min(least_early[link]);
            }
        }
    }
    match probes.iter().find(|probe| least_early[link(probe.queue)] > 0) {
        None => Ok(noise),
        Some(probe) => Err(format!(
            "the kernel lets frames go faster than link {}'s speed: its token bucket filter doesn't count bytes on the wire",
            link(probe.queue) + 1
        )),
    }
}

/// How many pairs the time is enough for.
fn pairs(way: Way, probes: &[Probe]) -> u64 {
    let speed = |probe: &Probe| way.network.speed(way.network.sender_of[probe.queue]);
    let pair = |probe: &Probe| PAIR * way.scale.sending(probe.largest, speed(probe));
    let longest = probes.iter().map(pair).max().unwrap_or(0);
    TIME.checked_div(longest).unwrap_or(0).clamp(FEWEST, PAIRS)
}

/// Sends one pair, now.
fn sender(probe: &Probe, scale: Scale, now: Nanos) -> Sender {
    let pair = Flow {
        number: 0,
        rate: 1,
        burst: PAIR * probe.largest,
        frame: probe.largest,
        deadline: 0,
        hops: Vec::new(),
    };
    Sender {
        source: Source::new(&pair, scale, now, now),
        route: vec![probe.queue],
        turn: Turn::Own,
    }
}
