//! The run in the plainest way, slot by slot, as document 01 and W-202 say it; beside the tool's own.

use course::traffic::frames::{Laptop, Send, Sends};
use course::traffic::hall::Hall;
use std::collections::VecDeque;

/// A frame's stay: queue, flow, its number, came, first slot, gone, and the slots left of a laptop's when it came.
pub type Stayed = (usize, usize, u64, u64, u128, u64, u128);
/// A laptop's frame: link, bytes and first slot.
pub type Started = (usize, u64, u128);

#[derive(Clone)]
struct Frame {
    /// Its flow, and its number there.
    id: (usize, u64),
    hop: usize,
    bytes: u64,
    came: u64,
    first: u128,
    behind: u128,
}

/// A link: what is under way with the slots left of it, its queues, ready laptops' frames, and its cable.
#[derive(Default)]
struct Link {
    under_way: Option<(Sending, u128)>,
    queues: Vec<usize>,
    waiting: Vec<VecDeque<Frame>>,
    laptops: VecDeque<Laptop>,
    cable: VecDeque<(u64, Frame)>,
}

#[derive(Clone, Copy)]
enum Sending {
    Level(usize),
    Laptop,
}

pub struct Slow<'a> {
    hall: &'a Hall,
    links: Vec<Link>,
    pub stays: Vec<Stayed>,
    pub started: Vec<Started>,
}

impl Slow<'_> {
    /// From instant 0 on for so many µs; what was seen is in order.
    pub fn run<'a>(hall: &'a Hall, sends: &Sends, micros: u64) -> Slow<'a> {
        let mut links = Vec::new();
        for (index, queues) in hall.links().into_iter().enumerate() {
            let own = sends.laptops.iter().filter(|laptop| laptop.link == index);
            links.push(Link {
                waiting: vec![VecDeque::new(); queues.len()],
                laptops: own.copied().collect(),
                queues,
                ..Link::default()
            });
        }
        let mut slow = Slow {
            hall,
            links,
            stays: Vec::new(),
            started: Vec::new(),
        };
        let mut sent = vec![0; hall.flows.len()];
        for now in 0..micros {
            slow.arrive(now, &sends.frames, &mut sent);
            for link in 0..slow.links.len() {
                slow.pass(link, now);
            }
        }
        slow.stays.sort_unstable();
        slow.started.sort_unstable();
        slow
    }

    /// What comes from cables, link by link, then what the sources add.
    fn arrive(&mut self, now: u64, frames: &[Send], sent: &mut [u64]) {
        let mut coming = Vec::new();
        for link in &mut self.links {
            while link.cable.front().is_some_and(|(at, _)| *at == now) {
                coming.extend(link.cable.pop_front().map(|(_, frame)| frame));
            }
        }
        for send in frames.iter().filter(|send| send.instant == now) {
            sent[send.flow] += 1;
            coming.push(Frame {
                id: (send.flow, sent[send.flow]),
                hop: 0,
                bytes: send.bytes,
                came: now,
                first: 0,
                behind: 0,
            });
        }
        for mut frame in coming {
            let hop = self.hall.flows[frame.id.0].hops[frame.hop];
            let link = &mut self.links[hop.link as usize - 1];
            frame.came = now;
            frame.behind = match link.under_way {
                Some((Sending::Laptop, left)) => left,
                _ => 0,
            };
            link.waiting[hop.level as usize - 1].push_back(frame);
        }
    }

    /// One link from this instant to the next.
    fn pass(&mut self, index: usize, now: u64) {
        let first = &self.hall.queues[self.links[index].queues[0]];
        let (speed, fixed_delay) = (u128::from(first.speed), first.fixed_delay);
        let start = u128::from(now) * 1000 * speed;
        for slot in start..start + 1000 * speed {
            let link = &mut self.links[index];
            if link.under_way.is_none() {
                link.under_way = link.take(slot, speed);
                if let Some((Sending::Laptop, whole)) = link.under_way {
                    self.started.push((index, (whole / 8000) as u64, slot));
                }
            }
            let Some((what, left)) = link.under_way else {
                continue;
            };
            link.under_way = (left > 1).then(|| (what, left - 1));
            let (1, Sending::Level(level)) = (left, what) else {
                continue;
            };
            let frame = link.waiting[level].pop_front().unwrap();
            let gone = now + 1;
            let Frame { id, came, .. } = frame;
            let queue = link.queues[level];
            self.stays
                .push((queue, id.0, id.1, came, frame.first, gone, frame.behind));
            if frame.hop + 1 < self.hall.flows[id.0].hops.len() {
                let hop = frame.hop + 1;
                link.cable
                    .push_back((gone + fixed_delay, Frame { hop, ..frame }));
            }
        }
    }
}

impl Link {
    /// What a free link takes in this slot: a waiting frame, else a laptop's that is ready.
    fn take(&mut self, slot: u128, speed: u128) -> Option<(Sending, u128)> {
        let bits = |bytes: u64| 8000 * u128::from(bytes);
        for (level, frames) in self.waiting.iter_mut().enumerate() {
            if let Some(frame) = frames.front_mut() {
                frame.first = slot;
                return Some((Sending::Level(level), bits(frame.bytes)));
            }
        }
        let ready = |laptop: &Laptop| u128::from(laptop.ready) * speed <= slot;
        let next = self.laptops.front().copied().filter(ready)?;
        self.laptops.pop_front();
        Some((Sending::Laptop, bits(next.bytes)))
    }
}
