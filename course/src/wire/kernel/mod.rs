//! The kernel's queues behind `Wires`.

mod calls;
pub mod namespace;

use super::roads::{Road, MOST_LEVELS};
use super::run::{Dequeued, Wires};
use super::scale::{Nanos, Scale};
use crate::folder::why;
use crate::traffic::hall::Hall;
use calls::{Socket, START};
use namespace::{ends, Programs, OVERHEAD};
use std::io::{Error, ErrorKind};

/// The priority by which a frame comes into the band of its level (tc-prio(8), the default priomap): interactive, best effort,
/// bulk.
const PRIORITIES: [i32; MOST_LEVELS as usize] = [6, 0, 2];

/// Frames that a band has room for beside those that conforming sources put there: the machine may be slow.
const BESIDE: u64 = 1000;
/// Bytes that a socket may keep, where the system allows so many.
const ROOM: i32 = 32_000_000;

/// For protocols of one's own (IEEE 802, local experimental).
const ETHER_TYPE: [u8; 2] = [0x88, 0xb5];
const TO: [u8; 6] = [2, 0, 0, 0, 0, 2];
const FROM: [u8; 6] = [2, 0, 0, 0, 0, 1];
/// Where a frame's name stands, up to the end of what is read of it.
const NAME_AT: usize = START - 4;

pub struct Kernel {
    /// By queue; none where no flow goes.
    queues: Vec<Option<Socket>>,
    links: Vec<Socket>,
    clock: Clock,
}

fn words(what: &str) -> impl Fn(Error) -> String + '_ {
    move |error| format!("{what}: {}", why(&error))
}

impl Kernel {
    /// Enters a network of its own with these links; what the machine lacks, in words. A source may send `beyond` frames more
    /// than its bucket holds.
    pub fn build(hall: &Hall, roads: &[Road], scale: Scale, beyond: u64) -> Result<Kernel, String> {
        let programs = Programs::find()?;
        let way_out = namespace::way_out();
        let room = |road: &Road| BESIDE + beyond + road.most_frames(hall);
        let made = namespace::enter().and_then(|()| programs.build(roads, scale, room));
        made.map_err(|why| why + way_out)?;
        calls::wake_promptly();
        let no_socket = words("a packet socket can't be opened");
        let mut queues: Vec<Option<Socket>> = hall.queues.iter().map(|_| None).collect();
        let mut links = Vec::new();
        for road in roads {
            let [sends, receives] = ends(road);
            for queue in road.carrying(hall) {
                let priority = PRIORITIES[queue - road.queues.start];
                let socket = calls::interface(&sends)
                    .and_then(|number| Socket::sending(number, priority, ROOM));
                queues[queue] = Some(socket.map_err(&no_socket)?);
            }
            let socket =
                calls::interface(&receives).and_then(|number| Socket::receiving(number, ROOM));
            links.push(socket.map_err(&no_socket)?);
        }
        Ok(Kernel {
            queues,
            links,
            clock: Clock::read(),
        })
    }
}

/// Why a frame can't be put into its queue.
fn unsent(error: &Error) -> String {
    match error.raw_os_error() {
        Some(calls::NO_ROOM) => {
            "a queue of the kernel is full: this machine can't keep up; slower motion helps".to_string()
        }
        _ if error.kind() == ErrorKind::WouldBlock => {
            "the system keeps no more frames of a socket; a greater net.core.wmem_max, or root, gives it room"
                .to_string()
        }
        _ => format!("a frame can't be sent: {}", why(error)),
    }
}

/// A frame of so many bytes on the wire, with its name.
fn frame(name: u32, bytes: u64) -> Vec<u8> {
    let mut frame = [&TO[..], &FROM, &ETHER_TYPE, &name.to_be_bytes()].concat();
    frame.resize((bytes - OVERHEAD) as usize, 0);
    frame
}

/// The name of a frame that stands here; nothing where it isn't one of ours.
fn name_of(start: &[u8; START]) -> Option<u32> {
    let (head, name) = start.split_at(NAME_AT);
    let ours = head.ends_with(&ETHER_TYPE);
    name.try_into()
        .ok()
        .filter(|_| ours)
        .map(u32::from_be_bytes)
}

impl Wires for Kernel {
    fn now(&self) -> Nanos {
        calls::now()
    }

    fn send(&mut self, queue: usize, name: u32, bytes: u64) -> Result<(Nanos, Nanos), String> {
        let Some(socket) = &self.queues[queue] else {
            return Err("a frame for a queue that carries no flow".to_string());
        };
        let frame = frame(name, bytes);
        let before = calls::now();
        socket.send(&frame).map_err(|error| unsent(&error))?;
        Ok((before, calls::now()))
    }

    fn receive(&mut self, until: Nanos) -> Result<Vec<Dequeued>, String> {
        let most = until.saturating_sub(calls::now());
        let ready = calls::wait(&self.links, most).map_err(words("waiting for frames"))?;
        self.clock.still_unset()?;
        let mut came = Vec::new();
        for link in ready {
            while let Some((start, at)) = link.receive().map_err(words("receiving a frame"))? {
                let name = name_of(&start);
                let name = name.ok_or("a frame that isn't ours came over a link")?;
                came.push(Dequeued { name, at });
            }
        }
        Ok(came)
    }
}

/// Whether somebody sets the clock by which stays are measured.
struct Clock {
    /// How far it is ahead of one that nobody sets.
    ahead: i64,
}

/// A clock that is set right is moved by far less between two looks.
const SET: u64 = 1_000_000;

impl Clock {
    fn read() -> Clock {
        let ahead = calls::now() as i64 - calls::steady() as i64;
        Clock { ahead }
    }

    fn still_unset(&mut self) -> Result<(), String> {
        // Between the two looks of one reading the process may have had to wait: another reading then tells.
        let readings = (0..3).map(|_| Clock::read());
        let near = |clock: &Clock| clock.ahead.abs_diff(self.ahead) < SET;
        *self = readings
            .into_iter()
            .find(near)
            .ok_or("the system's clock was set while frames were under way")?;
        Ok(())
    }
}
