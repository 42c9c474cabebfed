//! The run with cables: a frame that has left a link comes to its next queue the link's fixed delay later.

mod common;

use common::{course as call, tight_hall, Temporary};
use course::status::Status;
use course::traffic::frames::Stay;
use course::traffic::hall::Hall;
use course::traffic::network::Network;
use course::traffic::run::{run, Arrivals};
use course::traffic::sends;
use course::traffic::watch::Watch;
use halls::rng::Rng;
use halls::tables::table_text;
use plain::orders::{write_registration, Flow, Hop};
use plain::table::Queue;
use std::collections::BTreeMap;

/// All stays and what the queues held, in their order.
#[derive(Default)]
struct Record {
    stays: Vec<Stay>,
    held: Vec<(usize, u64, u64)>,
}

impl Watch for Record {
    fn stay(&mut self, stay: &Stay) {
        self.stays.push(*stay);
    }

    fn queue(&mut self, queue: usize, instant: u64, _frames: u64, bytes: u64) {
        self.held.push((queue, instant, bytes));
    }
}

/// A level of a link of 100 Mbit/s.
fn queue(link: u64, ends: (u64, u64), level: u64, fixed_delay: u64) -> Queue {
    Queue {
        link,
        from: ends.0,
        to: ends.1,
        speed: 100,
        level,
        threshold: 1_000,
        buffer: 10_000,
        fixed_delay,
        best_effort_frame: 0,
    }
}

/// A flow that earns no second frame within a run, over level 1 of these links but for the last.
fn flow(number: u64, frame: u64, links: &[u64], last_level: u64) -> Flow {
    let mut hops: Vec<Hop> = links.iter().map(|&link| Hop { link, level: 1 }).collect();
    hops.last_mut().unwrap().level = last_level;
    Flow {
        number,
        rate: 1,
        burst: frame,
        frame,
        deadline: 50_000,
        hops,
    }
}

fn recorded(hall: &Hall, text: &str) -> Record {
    let lines = sends::read(text, &hall.flows, &hall.queues).unwrap();
    let list = sends::expand(&lines, &hall.flows, hall.span()).unwrap();
    let mut record = Record::default();
    let network = Network::new(&hall.queues, &hall.flows);
    run(&network, &list, Arrivals::ForwardedFirst, &mut record);
    record
}

/// Two links in a row and a frame of 250 bytes, which takes 20 µs on each.
fn row(delays: [u64; 2]) -> Hall {
    let queues = vec![
        queue(1, (1, 2), 1, delays[0]),
        queue(2, (2, 3), 1, delays[1]),
    ];
    Hall::new(queues, vec![flow(7, 250, &[1, 2], 1)])
}

/// Between the queues it is in neither; without a cable it comes at the instant it left.
#[test]
fn a_frame_comes_to_the_next_queue_after_the_cable() {
    for delay in [0, 1, 19, 20, 21, 10_000] {
        let hall = row([delay, 3]);
        let record = recorded(&hall, "5 7 250\n");
        let stays: Vec<[u64; 3]> = record
            .stays
            .iter()
            .map(|stay| [stay.frame.came, stay.gone, hall.reached(stay)])
            .collect();
        let (came, gone) = (25 + delay, 45 + delay);
        assert_eq!(stays, [[5, 25, came], [came, gone, gone + 3]], "{delay}");
        let held = [(0, 5, 250), (0, 25, 0), (1, came, 250), (1, gone, 0)];
        assert_eq!(record.held, held, "{delay}");
    }
}

/// Several frames are on a cable at once and come in the order in which they left.
#[test]
fn a_cable_holds_several_frames() {
    let hall = row([100, 0]);
    let record = recorded(&hall, "0 7 250\n20 7 100\n28 7 84\n");
    let second = record.stays.iter().filter(|stay| stay.queue == 1);
    let came: Vec<(u64, u64)> = second
        .map(|stay| (stay.frame.number, stay.frame.came))
        .collect();
    assert_eq!(came, [(1, 120), (2, 128), (3, 135)]);
}

/// Frames that come at one instant from several links are appended in the links' order, whichever left first.
#[test]
fn links_hand_on_in_their_order() {
    for (delays, sends) in [
        ([10, 0], "0 1 250\n10 2 250\n"),
        ([0, 10], "0 2 250\n10 1 250\n"),
    ] {
        let queues = vec![
            queue(1, (1, 3), 1, delays[0]),
            queue(2, (2, 3), 1, delays[1]),
            queue(3, (3, 4), 1, 0),
        ];
        let flows = vec![flow(1, 250, &[1, 3], 1), flow(2, 250, &[2, 3], 1)];
        let hall = Hall::new(queues, flows);
        let record = recorded(&hall, sends);
        let shared = record.stays.iter().filter(|stay| stay.queue == 2);
        let order: Vec<(usize, u64, u64)> = shared
            .map(|stay| (stay.frame.flow, stay.frame.came, stay.gone))
            .collect();
        assert_eq!(order, [(0, 30, 50), (1, 30, 70)]);
    }
}

/// The longest path counts its cables: a greedy source without an end goes on for twice as long.
#[test]
fn the_span_has_the_cables() {
    assert_eq!(row([0, 0]).span(), 2_000);
    assert_eq!(row([70, 3]).span(), 2_073);
}

/// A drive whose first link has a long cable, and a log whose frame must be under way when the drive's comes: the search
/// starts the drive so much earlier.
#[test]
fn the_search_counts_the_cables() {
    let queues = [
        queue(1, (1, 3), 1, 5_000),
        queue(2, (2, 3), 1, 0),
        queue(3, (3, 4), 1, 0),
        queue(3, (3, 4), 2, 0),
    ];
    let flows = [flow(1, 100, &[1, 3], 1), flow(2, 1_542, &[2, 3], 2)];
    let orders: Vec<u8> = flows.iter().flat_map(write_registration).collect();
    let folder = Temporary::with(&table_text(&queues), &orders);
    let options = ["--search", "--tries", "1", "--queue", "3.1"];
    let found = call(&[&["traffic", &folder.word()], &options[..]].concat());
    assert_eq!(found.status, Status::Fine, "{}", found.errors);
    // 1,542 bytes less 1 µs, then 100 bytes: 122.36 + 8.
    let verdict = "closest link 3 level 1, 131 of 1,000 µs\n";
    assert!(found.printed.ends_with(verdict), "{}", found.printed);
    let sends = "\n0 1 100\n4883 2 1542\n";
    assert!(found.printed.contains(sends), "{}", found.printed);
}

/// Tight halls, every source greedy: each frame comes to its next queue the cable's time after it left, and reaches its
/// destination within the thresholds and fixed delays of its path, which is its deadline.
#[test]
fn every_frame_arrives_within_its_deadline() {
    let (mut frames, mut cables) = (0, 0);
    for index in 0..100 {
        let mut rng = Rng::new(201, index);
        let Some(drawn) = tight_hall(&mut rng) else {
            continue;
        };
        let hall = Hall::new(drawn.queues, drawn.flows);
        let greedy = |flow: &Flow| format!("greedy {} from 0 to 2000\n", flow.number);
        let text: String = hall.flows.iter().map(greedy).collect();
        let mut paths: BTreeMap<(usize, u64), Vec<Stay>> = BTreeMap::new();
        for stay in recorded(&hall, &text).stays {
            let frame = (stay.frame.flow, stay.frame.number);
            paths.entry(frame).or_default().push(stay);
        }
        for ((flow, _), stays) in &paths {
            for pair in stays.windows(2) {
                assert_eq!(pair[1].frame.came, hall.reached(&pair[0]));
                cables += u64::from(hall.reached(&pair[0]) > pair[0].gone);
            }
            let (first, last) = (stays[0], stays[stays.len() - 1]);
            let flow = &hall.flows[*flow];
            assert_eq!(stays.len(), flow.hops.len());
            let taken = hall.reached(&last) - first.frame.came;
            assert!(taken <= flow.deadline, "hall {index}: {taken}");
            frames += 1;
        }
    }
    assert!(frames > 5_000, "{frames} frames");
    assert!(cables > 1_000, "{cables} on cables");
}
