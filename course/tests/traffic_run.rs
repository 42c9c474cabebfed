//! The run beside the checker's, instant by instant, and beside the model's worked run.

mod common;

use checker::sim::{self, Observer};
use checker::simulate;
use common::tight_hall;
use course::traffic::conform::breaches;
use course::traffic::figures::{Figures, Verdict};
use course::traffic::frames::{Send, Sends, Stay};
use course::traffic::hall::Hall;
use course::traffic::network::Network;
use course::traffic::run::{run, Arrivals};
use course::traffic::sends::{self, Entry, Lines, What};
use course::traffic::watch::Watch;
use halls::rng::Rng;
use halls::sources::{self, Pattern};
use plain::orders::{Flow, Hop};
use plain::table::Queue;
use std::collections::BTreeMap;

/// What was seen, in one form for both: frames and bytes of each queue that holds any, by instant,
/// and all stays (queue, flow, came, gone) in their order.
#[derive(Default, PartialEq, Debug)]
struct Record {
    holds: BTreeMap<(u64, usize), (u64, u64)>,
    stays: Vec<(usize, usize, u64, u64)>,
}

impl Observer for Record {
    fn holds(&mut self, instant: u64, queue: usize, frames: usize, bytes: u64) {
        self.holds.insert((instant, queue), (frames as u64, bytes));
    }

    fn left(&mut self, queue: usize, flow: usize, reached: u64, gone: u64) {
        self.stays.push((queue, flow, reached, gone));
    }
}

/// Fills in the instants at which nothing happened.
#[derive(Default)]
struct Filled {
    record: Record,
    now: BTreeMap<usize, (u64, u64)>,
    last: u64,
}

impl Filled {
    fn up_to(&mut self, instant: u64) {
        for between in self.last..instant {
            for (&queue, &held) in &self.now {
                self.record.holds.insert((between, queue), held);
            }
        }
        self.last = instant;
    }
}

impl Watch for Filled {
    fn stay(&mut self, stay: &Stay) {
        self.record
            .stays
            .push((stay.queue, stay.frame.flow, stay.frame.came, stay.gone));
    }

    fn queue(&mut self, queue: usize, instant: u64, frames: u64, bytes: u64) {
        self.up_to(instant);
        self.now.insert(queue, (frames, bytes));
        if frames == 0 {
            self.now.remove(&queue);
        }
    }
}

fn random_sends(rng: &mut Rng, flows: &[Flow], span: u64) -> Vec<sources::Send> {
    let mut all = Vec::new();
    for (index, flow) in flows.iter().enumerate() {
        let pattern = Pattern::random(rng, span);
        all.extend(sources::sends(rng, index, flow, pattern, 2 * span));
    }
    all.sort_by_key(|send| send.instant);
    all
}

fn of_course(list: &[sources::Send]) -> Sends {
    let one = |send: &sources::Send| Send {
        instant: send.instant,
        flow: send.flow,
        bytes: send.bytes,
        line: 1,
    };
    Sends {
        frames: list.iter().map(one).collect(),
        laptops: Vec::new(),
    }
}

/// Both runs of one hall in one order of arrivals; the number of stays.
fn compare(hall: &simulate::Hall, list: &[sources::Send], order: u64, seed: u64) -> usize {
    let theirs_order = [
        sim::Arrivals::SourcesLast,
        sim::Arrivals::SourcesFirst,
        sim::Arrivals::Shuffled,
    ][order as usize];
    let ours_order = match order {
        0 => Arrivals::ForwardedFirst,
        1 => Arrivals::ForwardedLast,
        _ => Arrivals::Shuffled(Rng::new(seed, 0)),
    };
    let mut theirs = Record::default();
    let fault = sim::Network::new(&hall.queues, &hall.flows).run_before(
        list,
        theirs_order,
        &mut Rng::new(seed, 0),
        &mut theirs,
    );
    assert!(fault.is_ok(), "the checker's run: {:?}", fault.err());
    let mut ours = Filled::default();
    let network = Network::new(&hall.queues, &hall.flows);
    run(&network, &of_course(list), ours_order, &mut ours);
    assert!(ours.now.is_empty(), "frames are left behind");
    assert_eq!(ours.record.stays.len(), theirs.stays.len());
    // Of one instant the links' order may differ; within a queue it may not.
    let by_queue = |stays: &[(usize, usize, u64, u64)]| {
        let mut sorted = stays.to_vec();
        sorted.sort_by_key(|&(queue, _, _, _)| queue);
        sorted
    };
    assert_eq!(by_queue(&ours.record.stays), by_queue(&theirs.stays));
    assert!(
        ours.record.holds == theirs.holds,
        "what the queues hold differs"
    );
    theirs.stays.len()
}

#[test]
fn equals_the_checkers_run_at_every_instant() {
    let (mut halls, mut with_cables, mut stays) = (0, 0, 0);
    for index in 0..150 {
        let mut rng = Rng::new(16, index);
        let Some(hall) = tight_hall(&mut rng) else {
            continue;
        };
        let span = hall.flows.iter().map(|flow| flow.deadline).max().unwrap();
        let list = random_sends(&mut rng, &hall.flows, span.min(4_000));
        halls += 1;
        with_cables += usize::from(hall.queues.iter().any(|queue| queue.fixed_delay > 0));
        for order in 0..3 {
            stays += compare(&hall, &list, order, index);
        }
    }
    assert!(halls > 50 && stays > 20_000, "{halls} halls, {stays} stays");
    assert!(with_cables > 20, "{with_cables} of them with cables");
}

/// `WorkedRun`'s hall: two flows on one link of 448 Mbit/s.
fn worked_hall() -> Hall {
    let queue = |level, threshold, buffer| Queue {
        link: 1,
        from: 1,
        to: 2,
        speed: 448,
        level,
        threshold,
        buffer,
        fixed_delay: 0,
        best_effort_frame: 0,
    };
    let flow = |level, burst| Flow {
        number: level,
        rate: 1_000,
        burst,
        frame: 84,
        deadline: 10,
        hops: vec![Hop { link: 1, level }],
    };
    Hall::new(
        vec![queue(1, 6, 169), queue(2, 10, 253)],
        vec![flow(1, 168), flow(2, 252)],
    )
}

/// `WorkedRun` of the model.
#[test]
fn has_the_worked_runs_figures() {
    let hall = worked_hall();
    let bounds: Vec<_> = hall
        .bounds
        .iter()
        .flatten()
        .map(|b| (b.delay, b.backlog))
        .collect();
    assert_eq!(bounds, [(6, 169), (10, 253)]);
    let text = "0 2 84\n1 2 84\n1 1 84\n2 2 84\n3 1 84\n";
    let lines = sends::read(text, &hall.flows, &hall.queues).unwrap();
    let list = sends::expand(&lines, &hall.flows, 0).unwrap();
    assert_eq!(breaches(&hall.flows, &list.frames), []);
    struct Stays(Vec<(usize, u64, u64, u128)>);
    impl Watch for Stays {
        fn stay(&mut self, stay: &Stay) {
            self.0.push((
                stay.frame.flow,
                stay.frame.came,
                stay.gone,
                stay.first / 1000,
            ));
        }
    }
    let mut stays = Stays(Vec::new());
    let network = Network::new(&hall.queues, &hall.flows);
    run(&network, &list, Arrivals::ForwardedFirst, &mut stays);
    // The last number: 672 bits a frame, 448 a µs; at instant 3 the link is free just when one comes.
    let worked = [
        (1, 0, 2, 0),
        (0, 1, 3, 672),
        (0, 3, 5, 1_344),
        (1, 1, 6, 2_016),
        (1, 2, 8, 2_688),
    ];
    assert_eq!(stays.0, worked);
}

/// One frame of 1,542 bytes on a link of 100 Mbit/s is gone after 124 µs: what is just within its
/// limits is kept.
#[test]
fn limits_are_met_exactly() {
    let kept = |threshold, buffer| {
        let queue = Queue {
            link: 1,
            from: 1,
            to: 2,
            speed: 100,
            level: 1,
            threshold,
            buffer,
            fixed_delay: 0,
            best_effort_frame: 0,
        };
        let flow = Flow {
            number: 7,
            rate: 1_000,
            burst: 1_542,
            frame: 1_542,
            deadline: 1_000,
            hops: vec![Hop { link: 1, level: 1 }],
        };
        let hall = Hall::new(vec![queue], vec![flow]);
        let lines = sends::read("5 7 1542", &hall.flows, &hall.queues).unwrap();
        let list = sends::expand(&lines, &hall.flows, 0).unwrap();
        let mut figures = Figures::new(&hall.queues);
        let network = Network::new(&hall.queues, &hall.flows);
        run(&network, &list, Arrivals::ForwardedFirst, &mut figures);
        let verdict = Verdict::of(&hall.queues, &figures.seen);
        (verdict.late, verdict.exceeded.len(), verdict.kept())
    };
    assert_eq!(kept(124, 1_542), (0, 0, true));
    assert_eq!(kept(123, 1_542), (1, 0, false));
    assert_eq!(kept(124, 1_541), (0, 1, false));
}

/// Tables whose thresholds and buffers are the very bounds, every source greedy from an instant
/// of its own.
#[test]
fn no_greedy_source_makes_a_frame_late() {
    let (mut halls, mut frames) = (0, 0);
    let mut index = 0;
    while halls < 500 {
        let mut rng = Rng::new(500, index);
        index += 1;
        let Some(drawn) = tight_hall(&mut rng) else {
            continue;
        };
        halls += 1;
        let hall = Hall::new(drawn.queues, drawn.flows);
        let apart = rng.pick(&[0, 1, 20, 500]);
        let entries: Vec<Entry> = (0..hall.flows.len())
            .map(|flow| Entry {
                line: flow + 1,
                flow,
                from: rng.between(0, apart),
                what: What::Greedy { to: None },
            })
            .collect();
        let lines = Lines {
            entries,
            laptops: Vec::new(),
        };
        let list = sends::expand(&lines, &hall.flows, hall.span()).unwrap();
        frames += list.frames.len();
        assert_eq!(breaches(&hall.flows, &list.frames), [], "hall {index}");
        let order = match rng.between(0, 2) {
            0 => Arrivals::ForwardedFirst,
            1 => Arrivals::ForwardedLast,
            _ => Arrivals::Shuffled(rng.clone()),
        };
        let mut figures = Figures::new(&hall.queues);
        let network = Network::new(&hall.queues, &hall.flows);
        run(&network, &list, order, &mut figures);
        let verdict = Verdict::of(&hall.queues, &figures.seen);
        assert!(
            verdict.kept(),
            "hall {index}: {}",
            verdict.words(&hall, &figures.seen)
        );
    }
    assert!(frames > 100_000, "{frames} frames");
}
