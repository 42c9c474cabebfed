//! W-202's run: best-effort frames on runs small enough to follow by hand, and whether the search finds what is missing
//! where bounds don't count them.

use checker::sim::{Arrivals, Fault, Free, Laptops, Network, Observer, Seen, Start};
use checker::simulate::{run_by, Laptop, Site, Trial, WITHOUT_BEST_EFFORT};
use halls::rng::Rng;
use halls::sources::Send;
use halls::tables::{Bounds, Count};
use plain::orders::{Flow, Hop};
use plain::table::Queue;
use std::slice;

/// A level of one link at 100 Mbit/s with laptop frames of up to 1,250 bytes, which take 100 µs.
fn queue(level: u64) -> Queue {
    Queue {
        link: 1,
        from: 1,
        to: 2,
        speed: 100,
        level,
        threshold: 10_000,
        buffer: 10_000,
        fixed_delay: 0,
        best_effort_frame: 1_250,
    }
}

/// A flow at a level of it.
fn flow(level: u64) -> Flow {
    Flow {
        number: level,
        rate: 1_000,
        burst: 3_084,
        frame: 1_542,
        deadline: 1,
        hops: vec![Hop { link: 1, level }],
    }
}

/// Laptops as a function says.
struct By<F>(F);

impl<F: FnMut(&Free) -> Option<Start>> Laptops for By<F> {
    fn start(&mut self, free: &Free) -> Option<Start> {
        (self.0)(free)
    }
}

fn just_before(free: &Free) -> Option<Start> {
    let (after, bytes) = (free.slots - 1, free.most);
    free.due.then_some(Start { after, bytes })
}

/// At once and always.
fn endless(free: &Free) -> Option<Start> {
    let (after, bytes) = (0, free.most);
    Some(Start { after, bytes })
}

/// Sends of (instant, level, bytes) beside laptops.
fn run(
    queues: &[Queue],
    grain: u64,
    list: &[(u64, usize, u64)],
    laptops: impl FnMut(&Free) -> Option<Start>,
    observer: &mut impl Observer,
) -> Result<Vec<Seen>, Fault> {
    let flows = [flow(1), flow(2)];
    let send = |&(instant, level, bytes): &(u64, usize, u64)| Send {
        instant,
        flow: level - 1,
        bytes,
    };
    let list: Vec<Send> = list.iter().map(send).collect();
    let (arrivals, mut rng) = (Arrivals::SourcesLast, Rng::new(1, 1));
    let network = Network::with_grain(queues, &flows[..queues.len()], grain);
    network.run_beside(&list, arrivals, &mut rng, &mut By(laptops), observer)
}

/// Each queue's longest stay.
fn stays(list: &[(u64, usize, u64)], laptops: fn(&Free) -> Option<Start>) -> [u64; 2] {
    let seen = run(&[queue(1), queue(2)], 1, list, laptops, &mut ()).unwrap();
    [seen[0].stay, seen[1].stay]
}

/// A bit of the laptop's 100 µs is over when the frame arrives.
#[test]
fn a_frame_waits_for_a_best_effort_frame_under_way() {
    let one = [(5, 1, 1_250)];
    assert_eq!(stays(&one, |_| None), [100, 0]);
    assert_eq!(stays(&one, just_before), [200, 0]);
    assert_eq!(stays(&[(5, 2, 1_250)], just_before), [0, 200]);
    let tight = |threshold, buffer| Queue {
        threshold,
        buffer,
        ..queue(1)
    };
    // It is in no buffer.
    assert!(run(&[tight(200, 1_250)], 1, &one, just_before, &mut ()).is_ok());
    let (queue, instant) = (0, 5 + 199);
    let late = run(&[tight(199, 1_250)], 1, &one, just_before, &mut ());
    assert_eq!(late.err(), Some(Fault::Late { queue, instant }));
}

/// The laptop's frames start at 0, so one is under way at 5 for 95 µs more; none starts while a frame waits.
#[test]
fn none_starts_while_a_frame_waits() {
    let two = [(5, 1, 1_250), (5, 1, 1_250)];
    assert_eq!(stays(&two, endless), [295, 0]);
    let levels = [(5, 2, 1_250), (5, 1, 1_250)];
    assert_eq!(stays(&levels, endless), [195, 295]);
    // It isn't broken off for level 1, and level 1 goes before level 2 that waits longer.
    let later = [(5, 2, 1_250), (60, 1, 1_250)];
    assert_eq!(stays(&later, endless), [140, 295]);
    // The frame that comes when the other has just left finds the link free.
    let apart = [(5, 1, 1_250), (200, 1, 1_250)];
    assert_eq!(stays(&apart, endless), [195, 0]);
}

/// Three best-effort frames end just at 300: the link is free, and the frame that arrives goes first.
#[test]
fn a_frame_that_finds_the_link_free_goes_first() {
    assert_eq!(stays(&[(300, 1, 1_250)], endless), [100, 0]);
    assert_eq!(stays(&[(301, 1, 1_250)], endless), [199, 0]);
    // At instant 0 nothing can be under way.
    assert_eq!(stays(&[(0, 1, 1_250)], just_before), [100, 0]);
}

/// A frame of one byte, started so that it ends in mid-interval, and one that starts in mid-interval after a frame.
#[test]
fn best_effort_frames_of_any_length_at_any_moment() {
    let (after, bytes) = (400 - 3, 1);
    let start = move |free: &Free| (free.slots >= 400).then_some(Start { after, bytes });
    let seen = run(&[queue(1)], 1, &[(4, 1, 1_250)], start, &mut ()).unwrap();
    assert_eq!(seen[0].stay, 101);
    // 84 bytes leave 28 bits of the 7th µs, in which the next best-effort frame starts.
    let list = [(5, 1, 84), (12, 1, 84)];
    let mut asked = Vec::new();
    let noted = |free: &Free| {
        asked.push((free.slots, free.due));
        (free.slots == 28).then_some(Start { after: 0, bytes: 5 })
    };
    let seen = run(&[queue(1)], 1, &list, noted, &mut ()).unwrap();
    // 12 of its 40 bits are left when the second frame comes: 684 bits.
    assert_eq!(seen[0].stay, 7);
    assert_eq!(asked, [(500, true), (28, true), (16, false)]);
}

/// At 1 Mbit/s 84 bytes are 672 µs. A bit before the arrival leaves 671 of them, half a bit 671.5.
#[test]
fn best_effort_frames_start_between_two_bits() {
    let slow = Queue {
        speed: 1,
        best_effort_frame: 84,
        ..queue(1)
    };
    for (grain, stay) in [(1, 1_343), (2, 1_344), (64, 1_344)] {
        let seen = run(
            slice::from_ref(&slow),
            grain,
            &[(5, 1, 84)],
            just_before,
            &mut (),
        )
        .unwrap();
        assert_eq!(seen[0].stay, stay, "{grain} slots to a bit");
    }
}

/// The instants at which a queue holds something, with the bytes.
#[derive(Default)]
struct Held(Vec<(u64, u64)>);

impl Observer for Held {
    fn holds(&mut self, instant: u64, _queue: usize, _frames: usize, bytes: u64) {
        self.0.push((instant, bytes));
    }
}

#[test]
fn a_best_effort_frame_is_in_no_queue() {
    let mut held = Held::default();
    let list = [(150, 1, 1_250)];
    run(&[queue(1)], 1, &list, endless, &mut held).unwrap();
    let expected: Vec<(u64, u64)> = (150..300).map(|instant| (instant, 1_250)).collect();
    assert_eq!(held.0, expected);
}

/// A link without the field carries no best-effort frame, whatever laptops want.
#[test]
fn none_on_a_link_without_the_field() {
    let alone = Queue {
        best_effort_frame: 0,
        ..queue(1)
    };
    let seen = run(&[alone], 1, &[(5, 1, 1_250)], endless, &mut ()).unwrap();
    assert_eq!(seen[0].stay, 100);
}

#[test]
#[should_panic]
fn none_longer_than_the_field() {
    let longer = |free: &Free| {
        let (after, bytes) = (0, free.most + 1);
        Some(Start { after, bytes })
    };
    let _ = run(&[queue(1)], 1, &[(5, 1, 84)], longer, &mut ());
}

/// A frame that reaches the link at 5, and one after it has been idle, beside one of the search's laptops: the longer stay,
/// the best-effort frames, and those that started a slot before a frame came.
fn beside(laptop: Laptop) -> (u64, u64, u64) {
    let laptops = [laptop];
    let mut site = Site::new(&laptops, Rng::new(1, 1));
    let list = [(5, 1, 1_250), (950, 1, 1_250)];
    let start = |free: &Free| site.start(free);
    let seen = run(&[queue(1)], 64, &list, start, &mut ()).unwrap();
    (seen[0].stay, site.started, site.just_before)
}

#[test]
fn the_laptops_of_the_search() {
    assert_eq!(beside(Laptop::Quiet), (100, 0, 0));
    assert_eq!(beside(Laptop::JustBefore(1)), (200, 2, 2));
    // From 0 on, and from 200 on when the first frame has left: 95 and 50 µs of a frame are still to come.
    assert_eq!(beside(Laptop::Endless), (195, 2, 0));
}

/// The mistake of leaving it out where there is no level below.
const LEFT_OUT_AT_THE_LAST_LEVEL: Count = Count {
    link: |queue, next| {
        if next.is_some_and(|next| next.link == queue.link) {
            return queue.of_link();
        }
        (WITHOUT_BEST_EFFORT.link)(queue, next)
    },
    ..Count::RIGHT
};

/// Whether the search finds such a fault in one of many halls tightened by these bounds.
fn finds(bounds: Bounds, such: fn(&Fault) -> bool) -> bool {
    let mut halls = run_by(1, 300, bounds, |trial| trial);
    halls.any(|found| found.unwrap().is_some_and(|fault| such(&fault)))
}

/// Thresholds without the best-effort frame are too small, at the last level alone too, and so are buffers.
#[test]
fn a_best_effort_frame_left_out_is_found() {
    let late = |fault: &Fault| matches!(fault, Fault::Late { .. });
    for delays in [WITHOUT_BEST_EFFORT, LEFT_OUT_AT_THE_LAST_LEVEL] {
        let bounds = Bounds {
            delays,
            ..Bounds::RIGHT
        };
        assert!(finds(bounds, late));
    }
    let bounds = Bounds {
        backlogs: WITHOUT_BEST_EFFORT,
        ..Bounds::RIGHT
    };
    assert!(finds(bounds, |fault| matches!(fault, Fault::Over { .. })));
}

/// Where laptops are quiet, the same bounds are right.
#[test]
fn bounds_without_it_hold_without_laptops() {
    let bounds = Bounds {
        delays: WITHOUT_BEST_EFFORT,
        backlogs: WITHOUT_BEST_EFFORT,
    };
    let found: Vec<Option<Fault>> = run_by(1, 30, bounds, Trial::quiet)
        .collect::<Result<_, _>>()
        .unwrap();
    assert!(found.len() > 10);
    assert_eq!(found.iter().flatten().next(), None);
}
