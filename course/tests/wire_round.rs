//! One round of `course wire`: when sources begin and frames are handed on, and what the machine adds.

mod common;

use common::bands::{hall_of, tried, Bands, Faults, SCALE};
use common::{example, Temporary};
use course::traffic::network::Network;
use course::wire::plan::{plans, Plan, Turn};
use course::wire::roads::roads;
use course::wire::run::{round, Dequeued, Sender, Stay, Way, Wires};
use course::wire::scale::{Nanos, Scale};
use course::wire::source::Source;
use course::wire::trial::Trial;
use course::wire::verdict::Limit;
use plain::orders::Flow;
use std::collections::VecDeque;

#[test]
fn bursts_meet_at_the_queue_that_a_round_is_about() {
    // To link 3 a frame of 100 bytes takes 8 µs, one of 1,542 takes 124; 2 µs are between those that come in turn.
    let hall = hall_of(&example("shared"));
    let network = Network::new(&hall.queues, &hall.flows);
    let plans = plans(&hall, &network, SCALE);
    let of_queue = |queue: usize| {
        let plan = plans.iter().find(|plan| plan.queue == queue).unwrap();
        let starts = plan.starts.iter().map(|start| (start.at, start.turn));
        (starts.collect::<Vec<_>>(), plan.end)
    };
    use Turn::{Above, Below, Elsewhere, Own};
    // Drives 11 and 12, cameras 21 and 22, the log 31; the longest path has bounds of 4,919 µs.
    let at_level_1 = [(120, Own), (120, Own), (0, Below), (0, Below), (124, Below)];
    assert_eq!(of_queue(4), (at_level_1.to_vec(), 128 + 9_838));
    let at_level_3 = [
        (116, Above),
        (116, Above),
        (0, Above),
        (0, Above),
        (126, Own),
    ];
    assert_eq!(of_queue(6), (at_level_3.to_vec(), 126 + 9_838));
    // All of link 1 are its own sources: they begin at once, in their turn.
    let at_link_1 = [
        (0, Above),
        (0, Elsewhere),
        (0, Own),
        (0, Elsewhere),
        (0, Elsewhere),
    ];
    assert_eq!(of_queue(1), (at_link_1.to_vec(), 9_838));
}

#[test]
fn a_source_begins_earlier_by_its_cables() {
    // To link 5 camera 203's frame takes 124 µs on link 3, to link 7 also 13 on link 5 and 120 on its cable; drive 101's, of
    // 200 bytes, takes 16 on each of three links. Those above or below come 2 µs earlier, or 4.
    let hall = hall_of(&example("hall"));
    let network = Network::new(&hall.queues, &hall.flows);
    let plans = plans(&hall, &network, SCALE);
    let starts = |link: u64, level: u64| {
        let at = |plan: &&Plan| {
            let queue = &hall.queues[plan.queue];
            (queue.link, queue.level) == (link, level)
        };
        let plan = plans.iter().find(at).unwrap();
        let of_flow = |number: u64| {
            let flow = hall.flows.iter().position(|flow| flow.number == number);
            plan.starts[flow.unwrap()].at
        };
        [of_flow(101), of_flow(203)]
    };
    // Camera 202 crosses two links of 100 Mbit/s before link 5, 248 µs.
    assert_eq!(starts(5, 1), [252 - 48, 252 - 128]);
    assert_eq!(starts(7, 1), [257 - 2, 0]);
}

#[test]
fn a_cable_holds_a_frame_for_its_fixed_delay() {
    // The second link's queue is reached 50 µs after the first has sent 123.36 µs.
    let table =
        b"   1   1   2   100 1    300     2000     50\n   2   2   3   100 1    300     2000\n";
    let orders = b" 1     7        1    1542 1542     700  2   1 1   2 1\n";
    let folder = Temporary::with(table, orders);
    let hall = hall_of(&folder.word());
    let network = Network::new(&hall.queues, &hall.flows);
    let roads = roads(&hall);
    let trial = Trial {
        hall: &hall,
        network: &network,
        roads: &roads,
        scale: SCALE,
        broken: None,
    };
    let mut bands = Bands::new(&hall, &network, &roads, SCALE);
    let plans = plans(&hall, &network, SCALE);
    trial.run(&mut bands, &plans, |_| ()).unwrap();
    let last: Vec<_> = bands.put.iter().rev().take(2).collect();
    let [(1, second, 1542), (0, first, 1542)] = last[..] else {
        panic!("{last:?}");
    };
    assert_eq!(second - first, SCALE.slow * (123_360 + 50_000));
}

#[test]
fn what_the_machine_adds_is_seen() {
    let table = b"   1   1   2   100 1    300     2000\n   2   2   3   100 1    300     2000\n   3   3   4   100 1    300     2000\n";
    let orders = b" 1     7        1    1542 1542     900  3   1 1   2 1   3 1\n";
    let folder = Temporary::with(table, orders);
    let hall = hall_of(&folder.word());
    let network = Network::new(&hall.queues, &hall.flows);
    let roads = roads(&hall);
    let limits: Vec<Limit> = roads
        .iter()
        .flat_map(|road| road.limits(&hall, SCALE))
        .collect();
    let faults = Faults {
        call: 30_000,
        timer: 70_000,
        wait: 20_000,
        ..Faults::default()
    };
    let watched = |flow: &Flow, route: &[usize], limits: &[Limit]| {
        let mut bands = Bands::new(&hall, &network, &roads, SCALE).with(faults, 1);
        let now = bands.now();
        let sender = Sender {
            source: Source::new(flow, SCALE, now, now),
            route: route.to_vec(),
            turn: Turn::Own,
        };
        let way = Way {
            network: &network,
            scale: SCALE,
            limits,
        };
        let stays = round(&mut bands, way, vec![sender], &mut 0).unwrap();
        let figures = stays
            .iter()
            .map(|stay| (stay.length, stay.late, stay.added));
        figures.collect::<Vec<_>>()
    };
    // The link stands idle for the call's first half and the timer, 100,000; the call takes 60,000. A forwarded frame comes a
    // wait and a call too late, 80,000, which is counted for the links behind too.
    let length = 12_336_000 + 100_000;
    let alone = watched(&hall.flows[0], &network.routes[0], &limits);
    let added = [160_000, 240_000, 320_000].map(|added| (length, 160_000, added));
    assert_eq!(alone, added);
    // Of two frames the second waits for the timer, 70,000; the first was let go 100,000 late.
    let twice = Flow {
        burst: 3_084,
        ..hall.flows[0].clone()
    };
    let figures = watched(&twice, &[0], &limits);
    assert_eq!(figures[0], (length, 160_000, 160_000));
    assert_eq!((figures[1].1, figures[1].2), (130_000, 230_000));
    // By what a stay is above its threshold it comes too late to the next link, as far as the machine may have added it.
    let mut tight = limits.clone();
    tight[0].threshold = 12_336_000 + 90_000;
    let above = watched(&hall.flows[0], &network.routes[0], &tight);
    assert_eq!(above[1].2, 240_000 + 10_000);
    tight[0].threshold = 0;
    let above = watched(&hall.flows[0], &network.routes[0], &tight);
    assert_eq!(above[1].2, 240_000 + 160_000);
    // Where the levels above leave a quarter, what is lost counts four times.
    tight[0].residual = tight[0].speed / 4;
    let above = watched(&hall.flows[0], &[0], &tight);
    assert_eq!(above[0].2, 640_000);
    // Of a pair on the idle link the first frame is let go latest.
    let noise = tried(&hall, faults, 1, None).unwrap().limits;
    let noise: Vec<u64> = noise.iter().map(|limit| limit.noise).collect();
    assert_eq!(noise, [160_000; 3]);
}

/// Lets go of frames when the test says.
struct Scripted {
    now: Nanos,
    lets_go: VecDeque<Dequeued>,
}

impl Wires for Scripted {
    fn now(&self) -> Nanos {
        self.now
    }

    fn send(&mut self, _: usize, _: u32, _: u64) -> Result<(Nanos, Nanos), String> {
        Ok((self.now, self.now))
    }

    fn receive(&mut self, until: Nanos) -> Result<Vec<Dequeued>, String> {
        let next = self.lets_go.pop_front_if(|frame| frame.at <= until);
        self.now = next.map_or(until, |frame| frame.at).max(self.now);
        Ok(next.into_iter().collect())
    }
}

#[test]
fn time_is_lost_though_another_frame_goes_first() {
    // Flow 8's second frame could go at 123,360 ns. The timer is late; flow 7's comes at 130,000 and goes 1 ns later.
    let hall = hall_of(&example("two-flows"));
    let network = Network::new(&hall.queues, &hall.flows);
    let scale = Scale { slow: 1 };
    let limits = roads(&hall)[0].limits(&hall, scale);
    let sender = |queue: usize, burst: u64, frame: u64, from: Nanos| {
        let flow = Flow {
            burst,
            frame,
            ..hall.flows[queue].clone()
        };
        Sender {
            source: Source::new(&flow, scale, from, from),
            route: vec![queue],
            turn: Turn::Own,
        }
    };
    let lets_go = [(0, 0), (2, 130_001), (1, 136_721)];
    let mut wires = Scripted {
        now: 0,
        lets_go: lets_go.map(|(name, at)| Dequeued { name, at }).into(),
    };
    let way = Way {
        network: &network,
        scale,
        limits: &limits,
    };
    let senders = vec![sender(0, 84, 84, 130_000), sender(1, 3_084, 1_542, 0)];
    let stays = round(&mut wires, way, senders, &mut 0).unwrap();
    let figures: Vec<_> = stays.iter().map(|stay| (stay.length, stay.late)).collect();
    assert_eq!(figures, [(123_360, 0), (6_721, 6_641), (260_081, 0)]);
    // Flow 7 leaves level 2 99,000 of 100,000 kbit/s: 6,641 by 0.99.
    let added: Vec<u64> = stays.iter().map(|stay| stay.added).collect();
    assert_eq!(added, [0, 6_641, 6_709]);
}

/// Nine links with the largest frame at level 1, flows of level 2 whose threshold is the very bound, and smallest frames at level
/// 3; the flows of level 2 meet at link 10.
fn merging() -> Temporary {
    let row = |link: u64, from: u64, to: u64, speed: u64, level: u64, threshold: u64| {
        format!("{link:4}{from:4}{to:4}{speed:6}{level:2}{threshold:7}    90000\n")
    };
    let head = |number: u64, rate: u64, burst: u64, frame: u64, hops: u64| {
        format!(" 1{number:6}{rate:9}{burst:8}{frame:5}   20000{hops:3}")
    };
    let (mut table, mut orders) = (String::new(), String::new());
    for link in 1..=9 {
        for (level, threshold) in [(1, 400), (2, 144), (3, 9_000)] {
            table += &row(link, 10 + link, 2, 100, level, threshold);
        }
        orders += &format!("{}{link:4} 3\n", head(300 + link, 100, 2_520, 84, 1));
        orders += &format!("{}{link:4} 1\n", head(100 + link, 1, 1_542, 1_542, 1));
        orders += &format!("{}{link:4} 2  10 1\n", head(200 + link, 10_000, 84, 84, 2));
    }
    table += &row(10, 2, 3, 95, 1, 210);
    Temporary::with(table.as_bytes(), orders.as_bytes())
}

#[test]
fn a_later_link_counts_what_goes_early_before_it() {
    let folder = merging();
    let hall = hall_of(&folder.word());
    assert_eq!(hall.flows.len(), 27);
    let network = Network::new(&hall.queues, &hall.flows);
    let roads = roads(&hall);
    let limits: Vec<Limit> = roads
        .iter()
        .flat_map(|road| road.limits(&hall, SCALE))
        .collect();
    let mut bands = Bands::new(&hall, &network, &roads, SCALE);
    let now = bands.now();
    let sender = |index: usize| Sender {
        source: Source::new(&hall.flows[index], SCALE, now, now + SCALE.nanos(2_700)),
        route: network.routes[index].clone(),
        turn: match hall.flows[index].hops[0].level {
            3 => Turn::Below,
            1 => Turn::Above,
            _ => Turn::Own,
        },
    };
    let way = Way {
        network: &network,
        scale: SCALE,
        limits: &limits,
    };
    let senders = (0..hall.flows.len()).map(sender).collect();
    let stays = round(&mut bands, way, senders, &mut 0).unwrap();
    let last = hall.queues.len() - 1;
    assert_eq!(limits[last].early, 0);
    let at_last = stays.iter().filter(|stay| stay.queue == last);
    let longest = at_last.max_by_key(|stay| stay.length).unwrap();
    // 286.8 of 210 µs, with nothing lost: all of it is what links 1 to 9 let go of early.
    assert!(longest.length > SCALE.nanos(280), "{longest:?}");
    let late = |stay: &&Stay| stay.length > limits[stay.queue].threshold + stay.added;
    assert_eq!(stays.iter().find(late), None);
}
