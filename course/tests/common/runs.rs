//! Runs with all that was seen, over small halls.

use course::traffic::frames::{BestEffort, Sends, Stay};
use course::traffic::hall::Hall;
use course::traffic::network::Network;
use course::traffic::run::{run, Arrivals};
use course::traffic::sends;
use course::traffic::watch::Watch;
use plain::orders::{Flow, Hop};
use plain::table::Queue;

/// All stays, laptops' frames and what the queues held.
#[derive(Default)]
pub struct Record {
    pub stays: Vec<Stay>,
    pub started: Vec<BestEffort>,
    pub held: Vec<(usize, u64, u64)>,
}

impl Watch for Record {
    fn stay(&mut self, stay: &Stay) {
        self.stays.push(*stay);
    }

    fn best_effort(&mut self, frame: &BestEffort) {
        self.started.push(*frame);
    }

    fn queue(&mut self, queue: usize, instant: u64, _frames: u64, bytes: u64) {
        self.held.push((queue, instant, bytes));
    }
}

pub fn recorded(hall: &Hall, list: &Sends) -> Record {
    let mut record = Record::default();
    let network = Network::new(&hall.queues, &hall.flows);
    run(&network, list, Arrivals::ForwardedFirst, &mut record);
    record
}

pub fn read(hall: &Hall, text: &str) -> Sends {
    let lines = sends::read(text, &hall.flows, &hall.queues).unwrap();
    sends::expand(&lines, &hall.flows, hall.span()).unwrap()
}

/// A link's queues; the limits play no part in a run.
pub fn link(number: u64, speed: u64, levels: u64, fixed_delay: u64, laptop: u64) -> Vec<Queue> {
    let queue = |level| Queue {
        link: number,
        from: number,
        to: number + 1,
        speed,
        level,
        threshold: 1_000,
        buffer: 10_000,
        fixed_delay,
        best_effort_frame: laptop,
    };
    (1..=levels).map(queue).collect()
}

pub fn flow(number: u64, burst: u64, frame: u64, hops: &[(u64, u64)]) -> Flow {
    Flow {
        number,
        rate: 1,
        burst,
        frame,
        deadline: 10_000,
        hops: hops
            .iter()
            .map(|&(link, level)| Hop { link, level })
            .collect(),
    }
}
