//! Document 01's run, from one instant at which something happens to the next. Nothing arrives
//! inside an interval, so a link's frames in it follow from what waits at its start: only the last
//! bit of each frame counts, not every bit. A laptop's frame may start inside it.

use super::frames::{Behind, BestEffort, Frame, Laptop, Send, Sends, Stay};
use super::marks::Marks;
use super::network::Network;
use super::slots::{self, Slots, THOUSAND};
use super::watch::Watch;
use halls::rng::Rng;
use std::cmp::Reverse;
use std::collections::{BinaryHeap, VecDeque};

/// In which order the arrivals of one instant are appended.
#[derive(Clone)]
pub enum Arrivals {
    ForwardedFirst,
    ForwardedLast,
    Shuffled(Rng),
}

/// What is sent on a link.
#[derive(Clone, Copy, PartialEq)]
enum Sending {
    /// The first frame of a queue.
    Queued(usize),
    /// A laptop's, which is in no queue.
    BestEffort,
}

/// What is under way, when its first bit is sent and when its last.
#[derive(Clone, Copy)]
struct UnderWay {
    what: Sending,
    first: Slots,
    end: Slots,
}

/// What a link does.
#[derive(Default)]
struct Wire {
    under_way: Option<UnderWay>,
    /// Frames whose last bit is sent before the next instant, with their first bit.
    leaving: Vec<(usize, Slots, Frame)>,
    /// Frames that have left, in no queue until they come to their next one.
    on_cable: VecDeque<Frame>,
    /// Laptops' frames that are ready, or are before the next instant.
    laptops: VecDeque<Laptop>,
}

struct Run<'a> {
    network: &'a Network,
    wires: Vec<Wire>,
    waiting: Vec<VecDeque<Frame>>,
    frames: Vec<u64>,
    bytes: Vec<u64>,
    sent: Vec<u64>,
    /// When a link has to be looked at next; each link is here once at most.
    due: BinaryHeap<Reverse<(u64, usize)>>,
    /// When frames on a link's cable come to their next queues.
    coming: BinaryHeap<Reverse<(u64, usize)>>,
    arriving: Vec<Frame>,
    changed: Marks,
    awake: Marks,
}

/// Runs from empty queues and cables until every frame has left its last queue, and every laptop's its link.
pub fn run(network: &Network, sends: &Sends, mut order: Arrivals, watch: &mut impl Watch) {
    let mut run = Run::new(network);
    let (mut frames, mut laptops) = (sends.frames.as_slice(), sends.laptops.as_slice());
    loop {
        let sent = frames.first().map(|send| send.instant);
        let ready = laptops.first().map(|laptop| laptop.ready / THOUSAND);
        let sources = sent.into_iter().chain(ready);
        let Some(now) = run.next_instant().into_iter().chain(sources).min() else {
            break;
        };
        run.depart(now, watch);
        run.hand_on(now);
        let forwarded = run.arriving.len();
        while let Some(send) = taken(&mut frames, |send| send.instant == now) {
            run.add(send);
        }
        match &mut order {
            Arrivals::ForwardedFirst => {}
            Arrivals::ForwardedLast => run.arriving.rotate_left(forwarded),
            Arrivals::Shuffled(rng) => rng.shuffle(&mut run.arriving),
        }
        run.arrive(now, watch);
        while let Some(laptop) = taken(&mut laptops, |laptop| laptop.ready / THOUSAND == now) {
            run.plug_in(laptop);
        }
        for link in run.awake.take() {
            run.serve(link, now, watch);
        }
        watch.instant(now, sends.frames.len() - frames.len());
    }
}

/// The first of a list, taken from it, where it is wanted.
fn taken<'a, T>(list: &mut &'a [T], wanted: impl Fn(&T) -> bool) -> Option<&'a T> {
    let (first, rest) = list.split_first()?;
    wanted(first).then(|| {
        *list = rest;
        first
    })
}

/// The lowest link that is listed for this instant, taken from the list.
fn pop(list: &mut BinaryHeap<Reverse<(u64, usize)>>, now: u64) -> Option<usize> {
    let &Reverse((instant, link)) = list.peek()?;
    (instant == now).then(|| {
        list.pop();
        link
    })
}

impl<'a> Run<'a> {
    fn new(network: &'a Network) -> Run<'a> {
        let (links, queues) = (network.senders.len(), network.sender_of.len());
        Run {
            network,
            wires: (0..links).map(|_| Wire::default()).collect(),
            waiting: (0..queues).map(|_| VecDeque::new()).collect(),
            frames: vec![0; queues],
            bytes: vec![0; queues],
            sent: vec![0; network.routes.len()],
            due: BinaryHeap::new(),
            coming: BinaryHeap::new(),
            arriving: Vec::new(),
            changed: Marks::new(queues),
            awake: Marks::new(links),
        }
    }

    /// When a link has to be looked at, or a frame comes from a cable.
    fn next_instant(&self) -> Option<u64> {
        let heaps = [&self.due, &self.coming];
        let firsts = heaps.into_iter().filter_map(BinaryHeap::peek);
        firsts.map(|Reverse((instant, _))| *instant).min()
    }

    /// The frames that have wholly left a queue at this instant go on the link's cable.
    fn depart(&mut self, now: u64, watch: &mut impl Watch) {
        while let Some(link) = pop(&mut self.due, now) {
            self.awake.add(link);
            let reached = now + self.network.senders[link].fixed_delay;
            let wire = &mut self.wires[link];
            let on_cable = wire.on_cable.len();
            for (queue, first, frame) in std::mem::take(&mut wire.leaving) {
                self.frames[queue] -= 1;
                self.bytes[queue] -= frame.bytes;
                self.changed.add(queue);
                watch.stay(&Stay {
                    frame,
                    queue,
                    first,
                    gone: now,
                });
                if frame.hop + 1 < self.network.routes[frame.flow].len() {
                    wire.on_cable.push_back(Frame {
                        hop: frame.hop + 1,
                        came: reached,
                        behind: None,
                        ..frame
                    });
                }
            }
            if wire.on_cable.len() > on_cable {
                self.coming.push(Reverse((reached, link)));
            }
        }
    }

    /// The frames that come from a cable at this instant, link by link: what left a link its fixed delay ago.
    fn hand_on(&mut self, now: u64) {
        while let Some(link) = pop(&mut self.coming, now) {
            let on_cable = &mut self.wires[link].on_cable;
            let coming = on_cable.iter().take_while(|frame| frame.came == now);
            let count = coming.count();
            self.arriving.extend(on_cable.drain(..count));
        }
    }

    fn add(&mut self, send: &Send) {
        self.sent[send.flow] += 1;
        self.arriving.push(Frame {
            flow: send.flow,
            number: self.sent[send.flow],
            hop: 0,
            bytes: send.bytes,
            came: send.instant,
            behind: None,
        });
    }

    /// A laptop's frame is ready before the next instant.
    fn plug_in(&mut self, laptop: &Laptop) {
        let wire = &mut self.wires[laptop.link];
        wire.laptops.push_back(*laptop);
        if wire.under_way.is_none() {
            self.awake.add(laptop.link);
        }
    }

    /// Appends what arrives. A link that sends already goes on with its frame.
    fn arrive(&mut self, now: u64, watch: &mut impl Watch) {
        for mut frame in self.arriving.drain(..) {
            let queue = self.network.routes[frame.flow][frame.hop];
            let link = self.network.sender_of[queue];
            self.frames[queue] += 1;
            self.bytes[queue] += frame.bytes;
            self.changed.add(queue);
            match self.wires[link].under_way {
                None => self.awake.add(link),
                Some(under_way) => frame.behind = behind(&under_way, now, self.network.speed(link)),
            }
            self.waiting[queue].push_back(frame);
        }
        for queue in self.changed.take() {
            watch.queue(queue, now, self.frames[queue], self.bytes[queue]);
        }
    }

    /// One link from this instant to the next: what is under way goes on, then a free link takes what
    /// waits, also in mid-interval.
    fn serve(&mut self, link: usize, now: u64, watch: &mut impl Watch) {
        let speed = self.network.speed(link);
        let end = slots::before(now + 1, speed);
        let mut free_from = slots::before(now, speed);
        while free_from < end {
            let under_way = self.wires[link].under_way.take();
            let Some(sent) = under_way.or_else(|| self.take(link, free_from, watch)) else {
                break;
            };
            free_from = sent.end;
            let wire = &mut self.wires[link];
            if sent.end > end {
                wire.under_way = Some(sent);
            } else if let Sending::Queued(queue) = sent.what {
                let frame = self.waiting[queue].pop_front();
                wire.leaving
                    .extend(frame.map(|frame| (queue, sent.first, frame)));
            }
        }
        let wire = &self.wires[link];
        match wire.under_way {
            // The interval in which its last bit is sent; what waits then decides what follows.
            Some(sent) if wire.leaving.is_empty() => {
                let last = slots::instant_after(sent.end, speed) - 1;
                self.due.push(Reverse((last, link)));
            }
            // Nothing to send: a frame that comes wakes it.
            None if free_from < end && wire.leaving.is_empty() => {}
            _ => self.due.push(Reverse((now + 1, link))),
        }
    }

    /// What a free link takes: the first frame of the lowest-numbered level that has one; where none
    /// waits, a laptop's as soon as it is ready.
    fn take(&mut self, link: usize, free_from: Slots, watch: &mut impl Watch) -> Option<UnderWay> {
        let mut queues = self.network.senders[link].queues.clone();
        if let Some(queue) = queues.find(|&queue| !self.waiting[queue].is_empty()) {
            return Some(UnderWay {
                what: Sending::Queued(queue),
                first: free_from,
                end: free_from + slots::sending(self.waiting[queue][0].bytes),
            });
        }
        let laptop = self.wires[link].laptops.pop_front()?;
        let speed = self.network.speed(link);
        let first = free_from.max(slots::before_moment(laptop.ready, speed));
        let end = first + slots::sending(laptop.bytes);
        let gone = slots::instant_after(end, speed);
        watch.best_effort(&BestEffort {
            laptop,
            first,
            gone,
        });
        Some(UnderWay {
            what: Sending::BestEffort,
            first,
            end,
        })
    }
}

/// What is left of a laptop's frame under way at an instant.
fn behind(under_way: &UnderWay, now: u64, speed: u64) -> Option<Behind> {
    (under_way.what == Sending::BestEffort).then(|| Behind {
        left: under_way.end - slots::before(now, speed),
        whole: under_way.end - under_way.first,
    })
}
