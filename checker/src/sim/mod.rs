//! Document 01's run: instants are whole µs, a link sends C bits between two of them, strict priority,
//! first in first out, never idle while a frame waits, never breaking off a frame. W-201: a frame that
//! has left a queue is on the link's cable for the link's fixed delay, and in no queue. W-202: a link
//! that is free and on which nothing waits may send a best-effort frame, which is in no queue either.
//! Time within a µs is counted in slots, so many to a bit.

mod port;

use halls::rng::Rng;
use halls::sources::Send;
use plain::orders::Flow;
use plain::table::Queue;
use port::Port;
pub use port::{Free, Laptops, Start};
use std::collections::VecDeque;

struct Frame {
    flow: usize,
    hop: usize,
    bytes: u64,
    sent: u64,
    /// The instant it reached the queue; on a cable, the one at which it reaches the next.
    reached: u64,
}

impl Frame {
    fn new(send: &Send) -> Frame {
        Frame {
            flow: send.flow,
            hop: 0,
            bytes: send.bytes,
            sent: send.instant,
            reached: send.instant,
        }
    }
}

/// The most that was seen of a queue.
#[derive(Clone, Copy, Default)]
pub struct Seen {
    pub stay: u64,
    pub backlog: u64,
}

/// A frame late or a buffer exceeded.
#[derive(Debug, PartialEq)]
pub enum Fault {
    Late { queue: usize, instant: u64 },
    Over { queue: usize, instant: u64 },
}

/// In which order the frames of one instant reach their queues.
#[derive(Clone, Copy)]
pub enum Arrivals {
    SourcesFirst,
    SourcesLast,
    Shuffled,
}

/// Who looks on, instant by instant.
pub trait Observer {
    /// A queue that holds frames, after the instant's arrivals.
    fn holds(&mut self, _instant: u64, _queue: usize, _frames: usize, _bytes: u64) {}
    /// A frame of a flow that reached the queue at one instant has left it at another.
    fn left(&mut self, _queue: usize, _flow: usize, _reached: u64, _gone: u64) {}
    /// A frame of a flow that was sent at one instant reaches its destination at another.
    fn arrives(&mut self, _flow: usize, _sent: u64, _reached: u64) {}
}

/// Nobody.
impl Observer for () {}

pub struct Network<'a> {
    queues: &'a [Queue],
    ports: Vec<Port>,
    /// Each flow's path as indices of queues.
    routes: Vec<Vec<usize>>,
    waiting: Vec<VecDeque<Frame>>,
    backlog: Vec<u64>,
    seen: Vec<Seen>,
}

impl<'a> Network<'a> {
    /// Empty queues and cables, one slot to a bit. The flows' hops are queues of the table.
    pub fn new(queues: &'a [Queue], flows: &[Flow]) -> Network<'a> {
        Network::with_grain(queues, flows, 1)
    }

    /// The same with so many slots to a bit.
    pub fn with_grain(queues: &'a [Queue], flows: &[Flow], grain: u64) -> Network<'a> {
        let mut ports: Vec<Port> = Vec::new();
        for (index, queue) in queues.iter().enumerate() {
            if queue.level == 1 {
                ports.push(Port::new(queue, index, grain));
            }
            if let Some(port) = ports.last_mut() {
                port.levels += 1;
            }
        }
        let index_of = |link, level| {
            queues
                .iter()
                .position(|queue| queue.link == link && queue.level == level)
        };
        let routes = flows
            .iter()
            .map(|flow| {
                flow.hops
                    .iter()
                    .filter_map(|hop| index_of(hop.link, hop.level))
                    .collect()
            })
            .collect();
        Network {
            queues,
            ports,
            routes,
            waiting: queues.iter().map(|_| VecDeque::new()).collect(),
            backlog: vec![0; queues.len()],
            seen: vec![Seen::default(); queues.len()],
        }
    }

    /// Runs until every frame has left its last queue; `sends` is sorted by instant. No laptop, nobody looks on.
    pub fn run(
        self,
        sends: &[Send],
        arrivals: Arrivals,
        rng: &mut Rng,
    ) -> Result<Vec<Seen>, Fault> {
        self.run_before(sends, arrivals, rng, &mut ())
    }

    /// The same run with somebody looking on.
    pub fn run_before(
        self,
        sends: &[Send],
        arrivals: Arrivals,
        rng: &mut Rng,
        observer: &mut impl Observer,
    ) -> Result<Vec<Seen>, Fault> {
        self.run_beside(sends, arrivals, rng, &mut (), observer)
    }

    /// The same run beside laptops.
    pub fn run_beside(
        mut self,
        sends: &[Send],
        arrivals: Arrivals,
        rng: &mut Rng,
        laptops: &mut impl Laptops,
        observer: &mut impl Observer,
    ) -> Result<Vec<Seen>, Fault> {
        let mut unsent = sends;
        let mut instant = 0;
        loop {
            let sent = unsent.iter().take_while(|send| send.instant == instant);
            let (sent, later) = unsent.split_at(sent.count());
            self.arrive(instant, sent, arrivals, rng);
            unsent = later;
            let busy = self.look(instant, observer)?;
            // While nothing waits, nothing happens but on cables and by laptops.
            let next = if busy {
                Some(instant + 1)
            } else {
                self.next_arrival(unsent)
            };
            let Some(end) = next else {
                return Ok(self.seen);
            };
            self.pass(instant, end, observer);
            self.fill(end, unsent, laptops);
            instant = end;
        }
    }

    /// Frames reach their queues at an instant: from cables, and these from sources.
    fn arrive(&mut self, instant: u64, sent: &[Send], arrivals: Arrivals, rng: &mut Rng) {
        let mut arriving = self.off_cables(instant);
        let transit = arriving.len();
        arriving.extend(sent.iter().map(Frame::new));
        match arrivals {
            Arrivals::SourcesLast => {}
            Arrivals::SourcesFirst => arriving.rotate_left(transit),
            Arrivals::Shuffled => rng.shuffle(&mut arriving),
        }
        for frame in arriving {
            let queue = self.routes[frame.flow][frame.hop];
            self.backlog[queue] += frame.bytes;
            self.waiting[queue].push_back(frame);
        }
    }

    /// Each link from one instant to another; only where nothing waits are they more than a µs apart.
    fn pass(&mut self, instant: u64, end: u64, observer: &mut impl Observer) {
        for port in 0..self.ports.len() {
            self.ports[port].begin(end - instant);
            while let Some(queue) = self.sent_queue(port) {
                self.leave(port, queue, end, observer);
            }
        }
    }

    /// The queue whose frame a link has wholly sent before the next instant, if there is one.
    fn sent_queue(&mut self, port: usize) -> Option<usize> {
        let waiting = &self.waiting;
        self.ports[port].send(|port| {
            let mut queues = port.first..port.first + port.levels;
            queues.find_map(|queue| Some((queue, waiting[queue].front()?.bytes)))
        })
    }

    /// What links leave free goes to laptops. They are told what is to come: nothing they do can change it.
    fn fill(&mut self, end: u64, unsent: &[Send], laptops: &mut impl Laptops) {
        let arrival = self.next_arrival(unsent) == Some(end);
        for link in 0..self.ports.len() {
            if self.ports[link].is_open() {
                let due = arrival && self.is_due(link, end, unsent);
                self.ports[link].fill(link, due, laptops);
            }
        }
    }

    /// Whether a frame reaches a link's queues at the instant `end`, which comes next.
    fn is_due(&self, link: usize, end: u64, unsent: &[Send]) -> bool {
        let cables = self.ports.iter().flat_map(|port| {
            let landing = port.cable.iter().take_while(|frame| frame.reached == end);
            landing.map(|frame| self.routes[frame.flow][frame.hop])
        });
        let sent = unsent.iter().take_while(|send| send.instant == end);
        let mut reached = cables.chain(sent.map(|send| self.routes[send.flow][0]));
        reached.any(|queue| self.ports[link].has(queue))
    }

    /// The frames that reach their next queue at an instant, link by link.
    fn off_cables(&mut self, instant: u64) -> Vec<Frame> {
        let mut arriving = Vec::new();
        for port in &mut self.ports {
            let due = |frame: &Frame| frame.reached == instant;
            while port.cable.front().is_some_and(due) {
                arriving.extend(port.cable.pop_front());
            }
        }
        arriving
    }

    /// The next instant at which a frame reaches a queue, from a cable or a source.
    fn next_arrival(&self, unsent: &[Send]) -> Option<u64> {
        let cables = self.ports.iter().filter_map(|port| port.cable.front());
        let sent = unsent.first().map(|send| send.instant);
        cables.map(|frame| frame.reached).chain(sent).min()
    }

    /// Compares each queue with its limits at an instant; true if a frame waits anywhere.
    fn look(&mut self, instant: u64, observer: &mut impl Observer) -> Result<bool, Fault> {
        let mut busy = false;
        for (queue, limits) in self.queues.iter().enumerate() {
            let Some(oldest) = self.waiting[queue].front() else {
                continue;
            };
            busy = true;
            let frames = self.waiting[queue].len();
            observer.holds(instant, queue, frames, self.backlog[queue]);
            if instant - oldest.reached >= limits.threshold {
                return Err(Fault::Late { queue, instant });
            }
            if self.backlog[queue] > limits.buffer {
                return Err(Fault::Over { queue, instant });
            }
            self.seen[queue].backlog = self.seen[queue].backlog.max(self.backlog[queue]);
        }
        Ok(busy)
    }

    /// A queue's first frame has wholly left by `end` and is on the link's cable from then on.
    fn leave(&mut self, port: usize, queue: usize, end: u64, observer: &mut impl Observer) {
        let Some(frame) = self.waiting[queue].pop_front() else {
            return;
        };
        self.backlog[queue] -= frame.bytes;
        observer.left(queue, frame.flow, frame.reached, end);
        self.seen[queue].stay = self.seen[queue].stay.max(end - frame.reached);
        let reached = end + self.ports[port].fixed_delay;
        if frame.hop + 1 < self.routes[frame.flow].len() {
            self.ports[port].cable.push_back(Frame {
                hop: frame.hop + 1,
                reached,
                ..frame
            });
        } else {
            observer.arrives(frame.flow, frame.sent, reached);
        }
    }
}
