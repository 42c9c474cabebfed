//! Gates before sources: what passes conforms, whatever is offered; a conforming source loses nothing.

mod common;

use common::offered::{flow, listed};
use common::tight_hall;
use course::traffic::conform::{breaches, Breach, What};
use course::traffic::figures::{Figures, Verdict};
use course::traffic::frames::{Send, Sends};
use course::traffic::gates::{through, Count, Gates};
use course::traffic::network::Network;
use course::traffic::run::{run, Arrivals};
use halls::rng::Rng;
use halls::sources::{self, Pattern};
use plain::gate::{DROPPED, FRAME_REFUSED, TURN};
use plain::orders::Flow;

/// Beside the proved gate, where it is linked.
fn gated(flows: &[Flow], sends: &[Send]) -> (Vec<Send>, Gates) {
    through(proved::gate::CALLS.as_ref(), flows, sends).unwrap()
}

/// One flow's gate.
fn alone(one: &Flow, frames: &[(u64, u64)]) -> (Vec<Send>, Count) {
    let (passed, mut gates) = gated(std::slice::from_ref(one), &listed(frames));
    (passed, gates.counts.remove(0))
}

fn numbers(count: &Count) -> (u64, u64, u64) {
    (count.passed, count.dropped, count.refused)
}

/// A source by its flow's numbers, by twice its rate, burst or both, or with frames longer or shorter than it may have.
fn random_sends(rng: &mut Rng, flows: &[Flow], span: u64) -> Vec<Send> {
    let mut all = Vec::new();
    for (index, flow) in flows.iter().enumerate() {
        let mut sending = flow.clone();
        sending.rate *= rng.pick(&[1, 1, 2, 7]);
        sending.burst *= rng.pick(&[1, 1, 2, 5]);
        sending.frame += rng.pick(&[0, 0, 0, 1, 300]);
        sending.burst = sending.burst.max(sending.frame);
        let pattern = Pattern::random(rng, span);
        let list = sources::sends(rng, index, &sending, pattern, 2 * span);
        let short = rng.once_in(4);
        all.extend(list.iter().map(|send| Send {
            instant: send.instant,
            flow: index,
            bytes: send.bytes - u64::from(short && rng.once_in(9)),
            line: 1,
        }));
    }
    all.sort_by_key(|send| send.instant);
    all
}

/// Whether no frame is late and no buffer exceeded.
fn kept(hall: &checker::simulate::Hall, frames: &[Send], order: &Arrivals) -> bool {
    let sends = Sends {
        frames: frames.to_vec(),
        laptops: Vec::new(),
    };
    let mut figures = Figures::new(&hall.queues);
    let network = Network::new(&hall.queues, &hall.flows);
    run(&network, &sends, order.clone(), &mut figures);
    Verdict::of(&hall.queues, &figures.seen).kept()
}

/// The thresholds are the very bounds: without gates such sources make frames late.
#[test]
fn no_frame_is_late_behind_gates() {
    let (mut held_back, mut late) = (0, 0);
    for index in 0..150 {
        let rng = &mut Rng::new(41, index);
        let Some(hall) = tight_hall(rng) else {
            continue;
        };
        let sends = random_sends(rng, &hall.flows, hall.span());
        let order = match index % 3 {
            0 => Arrivals::ForwardedFirst,
            1 => Arrivals::ForwardedLast,
            _ => Arrivals::Shuffled(Rng::new(index, 0)),
        };
        let (passed, gates) = gated(&hall.flows, &sends);
        assert_eq!(breaches(&hall.flows, &passed), [], "{index}");
        for (place, flow) in hall.flows.iter().enumerate() {
            let own: Vec<sources::Send> = of_flow(&passed, place);
            assert!(sources::conforms(flow, &own), "{index}");
        }
        assert_eq!(gates.offered(), sends.len() as u64);
        assert!(kept(&hall, &passed, &order), "{index}");
        held_back += usize::from(passed.len() < sends.len());
        late += usize::from(!kept(&hall, &sends, &order));
    }
    assert!(held_back > 60 && late > 30, "{held_back} {late}");
}

fn of_flow(list: &[Send], flow: usize) -> Vec<sources::Send> {
    let own = list.iter().filter(|send| send.flow == flow);
    own.map(|send| sources::Send {
        instant: send.instant,
        flow,
        bytes: send.bytes,
    })
    .collect()
}

/// A source of frames that the gate may pass; every other time some go too early.
fn random_source(rng: &mut Rng) -> (Flow, Vec<(u64, u64)>) {
    let rate = rng.pick(&[1, 7, 500, 1_000, 20_000, 900_000]);
    let frame = rng.between(84, 1_542);
    let one = flow(rate, frame + rng.between(0, 3_000), frame);
    let pattern = Pattern::random(rng, 500);
    let list = sources::sends(rng, 0, &one, pattern, 2_000);
    let start = rng.pick(&[0, 1, TURN - 700, TURN, 3 * TURN - 1, 232 * TURN]);
    let mut list: Vec<(u64, u64)> = list
        .iter()
        .take(60)
        .map(|send| (start + send.instant, send.bytes))
        .collect();
    if rng.once_in(2) {
        let (at, by) = (rng.index(list.len() + 1), rng.pick(&[1, 2, 30, 500]));
        for (instant, _) in &mut list[at..] {
            *instant = instant.saturating_sub(by);
        }
        list.sort_by_key(|(instant, _)| *instant);
    }
    (one, list)
}

/// A conforming source loses nothing, wherever the clock stands when it begins; of another the first frame that is dropped is
/// the first that breaks the bucket, and it may go when the gate would let it pass.
#[test]
fn the_first_dropped_breaks_the_bucket() {
    let (mut whole, mut cut, mut round) = (0, 0, 0);
    for index in 0..5_000 {
        let (one, list) = random_source(&mut Rng::new(42, index));
        let Some((first, _)) = list.first() else {
            continue;
        };
        let known = breaches(std::slice::from_ref(&one), &listed(&list));
        let (passed, count) = alone(&one, &list);
        round += usize::from(first / TURN < list[list.len() - 1].0 / TURN);
        let Some(Breach { line, what, .. }) = known.first() else {
            assert_eq!(passed, listed(&list));
            whole += 1;
            continue;
        };
        let stopped = &count.firsts[0];
        assert_eq!((stopped.send.line, stopped.code), (*line, DROPPED));
        let What::Window { may_go, .. } = what else {
            panic!("{what:?}");
        };
        let mut later = list[..*line].to_vec();
        for (instant, dropped) in [(*may_go, 0), (*may_go - 1, 1)] {
            later[*line - 1].0 = instant;
            assert_eq!(alone(&one, &later).1.dropped, dropped);
        }
        cut += 1;
    }
    assert!(
        whole > 300 && cut > 300 && round > 50,
        "{whole} {cut} {round}"
    );
}

/// A frame goes after the time that it takes to earn, drops in between or not, also where the clock rolls over.
#[test]
fn the_clock_rolls_over() {
    let drive = flow(2_000, 400, 100);
    let start = TURN - 200;
    let mut frames = vec![(start, 100); 5];
    frames.extend([(TURN - 1, 100), (TURN + 199, 100), (TURN + 200, 100)]);
    let (passed, count) = alone(&drive, &frames);
    assert_eq!(numbers(&count), (5, 3, 0));
    assert_eq!(passed.last().unwrap().instant, TURN + 200);
    let stopped = &count.firsts[0];
    assert_eq!((stopped.send.line, stopped.gate.tokens), (5, 0));
    assert_eq!(stopped.missed, 0);
}

/// The clock doesn't tell a whole turn from none: a gate that isn't full misses it, and drops what a conforming source sends.
#[test]
fn a_turn_that_the_gate_does_not_see() {
    let drive = flow(2_000, 400, 100);
    let frames = [(0, 100), (TURN + 100, 100), (TURN + 100, 100)];
    assert_eq!(numbers(&alone(&drive, &frames).1), (3, 0, 0));
    let mut frames = vec![(0, 100); 4];
    frames.push((2 * TURN + 399, 100));
    assert_eq!(breaches(std::slice::from_ref(&drive), &listed(&frames)), []);
    let (_, count) = alone(&drive, &frames);
    let stopped = &count.firsts[0];
    assert_eq!((stopped.gate.tokens, stopped.missed), (798_000, 2));
    let words =
        "since it was last full the gate missed 2 turns of the clock, 4,294,967,296 µs each";
    assert!(stopped.to_string().ends_with(words), "{stopped}");
    // A frame within each turn, and nothing is missed; a refused one stores no reading.
    let one = flow(2_000, 400, 400);
    for (bytes, row) in [(84, (3, 0, 0)), (83, (1, 1, 1))] {
        let frames = [(0, 400), (TURN - 1, bytes), (TURN + 1_000, 400)];
        let (_, count) = alone(&one, &frames);
        assert_eq!(numbers(&count), row);
        let dropped = count.firsts.iter().find(|first| first.code == DROPPED);
        assert_eq!(dropped.map(|first| first.missed), (row.1 > 0).then_some(1));
    }
    // Full again after the turn: what it missed doesn't count any more.
    let mut frames = vec![(0, 100), (TURN, 84)];
    frames.extend([(TURN + 5_000, 100); 5]);
    let (_, count) = alone(&drive, &frames);
    assert_eq!((count.dropped, count.firsts[0].missed), (1, 0));
}

/// 60 is no drop: it takes nothing, stores nothing, and a later frame goes as if it hadn't been offered.
#[test]
fn refused_is_not_dropped() {
    let drive = flow(2_000, 400, 100);
    let (passed, count) = alone(&drive, &[(0, 83), (0, 101), (5, 84), (5, 100)]);
    assert_eq!(numbers(&count), (2, 0, 2));
    assert_eq!(passed.len(), 2);
    let stopped = &count.firsts[0];
    assert_eq!((stopped.send.line, stopped.code), (1, FRAME_REFUSED));
    let words = "refused (60): a frame of 83 bytes; its frames have 84 to 100";
    assert_eq!(stopped.to_string(), words);
    let mut frames = vec![(0, 100); 5];
    frames.extend([(1, 65_535), (2, 101)]);
    let (_, count) = alone(&drive, &frames);
    assert_eq!(numbers(&count), (4, 1, 2));
    let firsts = count.firsts.iter();
    let firsts: Vec<(usize, u32)> = firsts.map(|first| (first.send.line, first.code)).collect();
    assert_eq!(firsts, [(5, DROPPED), (6, FRAME_REFUSED)]);
    let words = "dropped (1): 8000 × 100 = 800,000 above 0 tokens; such a frame passes from 400 on, if no other does before";
    assert_eq!(count.firsts[0].to_string(), words);
}

/// A gate opened again is full again: only once the old one would be full too does what passes both conform.
#[test]
fn a_gate_opened_again() {
    let drive = flow(2_000, 400, 100);
    for (again, broken) in [(200, 1), (1_600, 1), (1_601, 0)] {
        let (mut passed, _) = alone(&drive, &[(1, 100); 5]);
        passed.extend(alone(&drive, &[(again, 100); 5]).0);
        assert_eq!(passed.len(), 8);
        let found = breaches(std::slice::from_ref(&drive), &passed);
        assert_eq!(found.len(), broken, "{again}");
    }
}
