//! One round: sources put their frames into the first queue of their path, and what has left a link is put into the next one
//! when its cable's time has passed. The kernel, or a test in its place, is behind `Wires`.

use super::link::Link;
use super::plan::Turn;
use super::scale::{Nanos, Scale};
use super::source::Source;
use super::verdict::Limit;
use crate::numbers::counted;
use crate::traffic::network::Network;
use plain::orders::LARGEST_FRAME;
use std::collections::{BTreeMap, BTreeSet, HashMap};

/// Links with their queues, and a clock.
pub trait Wires {
    fn now(&self) -> Nanos;
    /// Puts a frame of so many bytes on the wire into a queue: the clock just before and just after.
    fn send(&mut self, queue: usize, name: u32, bytes: u64) -> Result<(Nanos, Nanos), String>;
    /// Waits until a link lets go of a frame, at most until `until`, and takes all that there are, each link's in turn.
    fn receive(&mut self, until: Nanos) -> Result<Vec<Dequeued>, String>;
}

/// A frame that a link let go of.
#[derive(Clone, Copy, Debug, PartialEq)]
pub struct Dequeued {
    pub name: u32,
    pub at: Nanos,
}

/// A frame's stay in a queue.
#[derive(Clone, Copy, Debug, PartialEq)]
pub struct Stay {
    pub queue: usize,
    /// Index of its source.
    pub flow: usize,
    /// From 1 on, in the order in which its source sends.
    pub number: u64,
    pub length: Nanos,
    /// The most that the machine may have added to it.
    pub added: Nanos,
    /// For how long the link had stood idle though a frame waited when this one was let go, and how long the call took that put
    /// it into its queue.
    pub late: Nanos,
    /// How long before the end of the frame before the kernel let go of it.
    pub early: Nanos,
}

/// A source and the queues that its frames go through.
pub struct Sender {
    pub source: Source,
    pub route: Vec<usize>,
    pub turn: Turn,
}

/// Where frames go, and what their stays are held against.
#[derive(Clone, Copy)]
pub struct Way<'a> {
    pub network: &'a Network,
    pub scale: Scale,
    /// By queue.
    pub limits: &'a [Limit],
}

/// A frame on its way, in the queue of a hop or on the cable before it.
#[derive(Clone, Copy)]
struct Travel {
    flow: usize,
    number: u64,
    bytes: u64,
    hop: usize,
    /// When it should have come to the queue; by its source, whenever it came.
    due: Option<Nanos>,
    /// When it was put into the queue: before and after the call.
    put: (Nanos, Nanos),
    /// By how much the machine may have made it come later to this queue than the model allows, summed: let go after a
    /// threshold, or forwarded late.
    lag: Nanos,
}

/// What is to be done at a moment.
enum Due {
    Source(usize),
    Forward(Travel),
}

/// The kernel lets go of a frame sooner than this after the link is free, whatever else it does.
const PATIENCE: Nanos = 2_000_000_000;

struct Round<'a, W: Wires> {
    wires: &'a mut W,
    way: Way<'a>,
    senders: Vec<Sender>,
    /// How many frames each source has sent.
    sent: Vec<u64>,
    links: Vec<Link>,
    /// By time; what is due at one moment in the turn of sources, then as it was noted.
    due: BTreeMap<(Nanos, Turn, u64), Due>,
    noted: u64,
    under_way: HashMap<u32, Travel>,
    /// By link: when each frame in its queues came there.
    waiting: Vec<BTreeSet<(Nanos, u32)>>,
    /// By link: the greatest lag of a frame that came there.
    lags: Vec<Nanos>,
    stays: Vec<Stay>,
}

/// Lets these sources send until all are done and every frame has arrived: all stays, in the order in which frames left.
/// `names` is the next frame's name: none is used twice.
pub fn round<W: Wires>(
    wires: &mut W,
    way: Way,
    senders: Vec<Sender>,
    names: &mut u32,
) -> Result<Vec<Stay>, String> {
    let links = &way.network.senders;
    let speeds = links.iter().map(|link| link.speed);
    let mut round = Round {
        wires,
        way,
        sent: vec![0; senders.len()],
        senders,
        links: speeds.map(|speed| Link::new(way.scale, speed)).collect(),
        due: BTreeMap::new(),
        noted: 0,
        under_way: HashMap::new(),
        waiting: vec![BTreeSet::new(); links.len()],
        lags: vec![0; links.len()],
        stays: Vec::new(),
    };
    for index in 0..round.senders.len() {
        round.note_source(index);
    }
    round.run(names)?;
    Ok(round.stays)
}

impl<W: Wires> Round<'_, W> {
    fn run(&mut self, names: &mut u32) -> Result<(), String> {
        let mut moved = self.wires.now();
        loop {
            let now = self.wires.now();
            if let Some(due) = self.take_due(now) {
                self.perform(due, names)?;
                moved = now;
            }
            let until = match self.due.first_key_value() {
                Some((&(at, ..), _)) => at,
                None if self.under_way.is_empty() => self.all_sent(),
                None => moved + self.patience(),
            };
            if self.due.is_empty() && until <= now {
                return match self.under_way.len() {
                    0 => Ok(()),
                    lost => Err(lost_frames(lost)),
                };
            }
            for frame in self.wires.receive(until)? {
                self.dequeued(frame)?;
                moved = now;
            }
        }
    }

    fn take_due(&mut self, now: Nanos) -> Option<Due> {
        let first = self.due.first_entry()?;
        (first.key().0 <= now).then(|| first.remove())
    }

    /// When every link has sent what it was given: only then the kernel's buckets are full again.
    fn all_sent(&self) -> Nanos {
        self.links.iter().map(Link::free).max().unwrap_or(0)
    }

    /// Twice as long as the largest frame takes on the slowest link, and a while.
    fn patience(&self) -> Nanos {
        let speeds = self.way.network.senders.iter().map(|link| link.speed);
        PATIENCE
            + 2 * self
                .way
                .scale
                .sending(LARGEST_FRAME, speeds.min().unwrap_or(1))
    }

    fn note(&mut self, at: Nanos, turn: Turn, due: Due) {
        self.noted += 1;
        self.due.insert((at, turn, self.noted), due);
    }

    /// Notes when a source's next frame may go.
    fn note_source(&mut self, index: usize) {
        let sender = &self.senders[index];
        if let Some(at) = sender.source.due() {
            self.note(at, sender.turn, Due::Source(index));
        }
    }

    fn perform(&mut self, due: Due, names: &mut u32) -> Result<(), String> {
        match due {
            Due::Forward(travel) => self.put(travel, names).map(|_| ()),
            Due::Source(index) => {
                self.sent[index] += 1;
                let travel = Travel {
                    flow: index,
                    number: self.sent[index],
                    bytes: self.senders[index].source.next_bytes(),
                    hop: 0,
                    due: None,
                    put: (0, 0),
                    lag: 0,
                };
                let (before, after) = self.put(travel, names)?;
                self.senders[index].source.sent(before, after);
                self.note_source(index);
                Ok(())
            }
        }
    }

    fn link_of(&self, travel: &Travel) -> (usize, usize) {
        let queue = self.senders[travel.flow].route[travel.hop];
        (queue, self.way.network.sender_of[queue])
    }

    /// Puts a frame into the queue of its hop.
    fn put(&mut self, travel: Travel, names: &mut u32) -> Result<(Nanos, Nanos), String> {
        let (queue, link) = self.link_of(&travel);
        let name = *names;
        *names += 1;
        let put = self.wires.send(queue, name, travel.bytes)?;
        let (before, after) = put;
        let lag = travel.lag + travel.due.map_or(0, |due| after.saturating_sub(due));
        self.lags[link] = self.lags[link].max(lag);
        self.waiting[link].insert((before, name));
        self.under_way.insert(name, Travel { put, lag, ..travel });
        Ok(put)
    }

    /// A link let go of a frame: notes its stay, which runs from just before the frame was put into the queue.
    fn dequeued(&mut self, frame: Dequeued) -> Result<(), String> {
        let Some(travel) = self.under_way.remove(&frame.name) else {
            return Err("a frame came out of a queue twice".to_string());
        };
        let (queue, link) = self.link_of(&travel);
        let (before, after) = travel.put;
        let call = after.saturating_sub(before);
        let oldest = self.waiting[link].first().map_or(before, |(came, _)| *came);
        self.waiting[link].remove(&(before, frame.name));
        let sent = self.links[link].dequeued(oldest, frame.at, travel.bytes);
        let limit = &self.way.limits[queue];
        let stay = Stay {
            queue,
            flow: travel.flow,
            number: travel.number,
            length: sent.end.saturating_sub(before),
            added: limit.added(sent.lost + call, self.lags[link]),
            late: sent.late + call,
            early: sent.early,
        };
        self.stays.push(stay);
        let above = stay.length.saturating_sub(limit.threshold);
        let lag = travel.lag + above.min(stay.added);
        self.hand_on(Travel { lag, ..travel }, link, sent.end);
        Ok(())
    }

    /// Notes when a frame that has left a link comes to its next queue, if it has one.
    fn hand_on(&mut self, travel: Travel, link: usize, left: Nanos) {
        let hop = travel.hop + 1;
        if hop < self.senders[travel.flow].route.len() {
            let cable = self.way.network.senders[link].fixed_delay;
            let reached = left + self.way.scale.nanos(cable);
            let due = Some(reached);
            let forward = Due::Forward(Travel { hop, due, ..travel });
            self.note(reached, Turn::Below, forward);
        }
    }
}

fn lost_frames(count: usize) -> String {
    let frames = counted(count, "frame", "frames");
    format!("the kernel lost {frames}: put into a queue and never let go")
}
