//! `course wire`'s trials on bands that stand in the kernel's place: how near stays come to their bounds, and what is noticed.

mod common;

use common::bands::{hall_of, tried, Faults, SCALE};
use common::{example, tight_hall, Temporary};
use course::traffic::hall::Hall;
use course::wire::roads::{roads, MOST_LEVELS};
use course::wire::trial::{Break, Found};
use course::wire::verdict::{timing, Seen, Timing};
use halls::rng::Rng;

fn fine(hall: &Hall) -> Found {
    tried(hall, Faults::default(), 1, None).unwrap()
}

/// The longest stay of each queue that has one, ns of the hall.
fn longest(seen: &[Seen]) -> Vec<u64> {
    let stays = seen.iter().filter_map(|seen| seen.longest);
    stays.map(|stay| stay.length / SCALE.slow).collect()
}

#[test]
fn two_flows_wait_for_each_other() {
    // A frame of 1,542 bytes takes 123.36 µs. Each level waits for one of the other.
    let seen = fine(&hall_of(&example("two-flows"))).seen;
    assert_eq!(longest(&seen), [246_720, 246_720]);
    let stays: Vec<u64> = seen.iter().map(|seen| seen.stays).collect();
    assert_eq!(stays, [2, 2]);
    assert_eq!(timing(&seen), Timing::InTime);
}

#[test]
fn a_shared_link_comes_near_its_bounds() {
    // Bounds 164, 1,166, 164, 1,166, 202, 2,870 and 4,919 µs. At link 1 level 1 a frame of 1,542 bytes and the burst of 400 are
    // 155.36 µs; at level 2 eight frames of 1,542 and four and one more of 100 are 1,026.88.
    let hall = hall_of(&example("shared"));
    let Found { limits, seen } = fine(&hall);
    assert_eq!(timing(&seen), Timing::InTime);
    let longest = longest(&seen);
    assert_eq!(longest[0], 155_360);
    assert!(longest[1] >= 1_026_880, "{longest:?}");
    for (seen, bounds) in seen.iter().zip(&hall.bounds) {
        let bound = SCALE.nanos(bounds.unwrap().delay);
        let stay = seen.longest.unwrap().length;
        assert!(2 * stay >= bound && stay <= bound, "{stay} of {bound}");
        assert_eq!(seen.longest.unwrap().added, 0);
    }
    assert!(limits
        .iter()
        .all(|limit| (limit.noise, limit.early) == (0, 0)));
}

#[test]
fn the_example_hall_and_a_broken_bucket() {
    let hall = hall_of(&example("hall"));
    assert_eq!(timing(&fine(&hall).seen), Timing::InTime);
    let flow = hall.flows.iter().position(|flow| flow.number == 203);
    let broken = |count| {
        let flow = flow.unwrap();
        let broken = Some(Break { flow, count });
        tried(&hall, Faults::default(), 1, broken).unwrap().seen
    };
    assert_eq!(timing(&broken(12)), Timing::Late);
    // One frame more than the bucket holds has room below the threshold.
    assert_eq!(timing(&broken(1)), Timing::InTime);
}

#[test]
fn first_in_first_out_is_late() {
    let faults = Faults {
        first_in_first_out: true,
        ..Faults::default()
    };
    let found = tried(&hall_of(&example("shared")), faults, 1, None);
    let seen = found.unwrap().seen;
    assert_eq!(timing(&seen), Timing::Late);
    assert!(seen[0].late > 0 && seen[1].late == 0);
}

#[test]
fn a_filter_that_leaves_bytes_out_is_noticed() {
    let faults = Faults {
        uncounted: 24,
        ..Faults::default()
    };
    let failed = tried(&hall_of(&example("two-flows")), faults, 1, None);
    assert_eq!(
        failed.err().unwrap(),
        "the kernel lets frames go faster than link 1's speed: its token bucket filter doesn't count bytes on the wire"
    );
}

#[test]
fn lost_frames_end_the_trial() {
    let faults = Faults {
        loses: Some(200),
        ..Faults::default()
    };
    let failed = tried(&hall_of(&example("hall")), faults, 1, None)
        .err()
        .unwrap();
    assert!(failed.starts_with("the kernel lost "), "{failed}");
}

/// How often nothing can be said of a hall on such machines; no frame is called late there.
fn unclear_on(hall: &Hall, machines: &[Faults]) -> u64 {
    let mut unclear = 0;
    for seed in 0..30 {
        for &faults in machines {
            let Found { limits, seen } = tried(hall, faults, seed, None).unwrap();
            assert_ne!(timing(&seen), Timing::Late, "seed {seed}, {faults:?}");
            assert!(limits[0].noise > 0);
            unclear += u64::from(timing(&seen) == Timing::Unclear);
        }
    }
    unclear
}

#[test]
fn a_slow_machine_makes_no_frame_late() {
    // 1,000 µs of real time are 10 of the hall's; link 1 level 1 has 9 to spare.
    let slow_by = |most: u64| Faults {
        call: most,
        timer: most,
        wait: most,
        drawn: true,
        ..Faults::default()
    };
    let shared = hall_of(&example("shared"));
    assert!(unclear_on(&shared, &[100_000, 1_000_000, 5_000_000].map(slow_by)) > 0);
}

#[test]
fn a_timer_that_is_slow_beside_the_frames_makes_none_late() {
    // Frames of 84 bytes take 6.72 µs, in slow motion 672. Level 1 leaves a quarter of the link to those below, level 2 a
    // twentieth to level 3: while time is lost with each frame, theirs keep coming.
    let table = b"   1   1   2   100 1    143    90000\n   1   1   2   100 2    600    90000\n   1   1   2   100 3  30000    90000\n";
    let orders = b" 1     1    75000     840   84   30000  1   1 1\n 1     2    20000     840   84   30000  1   1 2\n 1     3        1      84   84   30000  1   1 3\n";
    let folder = Temporary::with(table, orders);
    let hall = hall_of(&folder.word());
    assert_eq!(hall.flows.len(), 3);
    assert_eq!(timing(&fine(&hall).seen), Timing::InTime);
    let slow_timer = |(timer, drawn): (u64, bool)| Faults {
        timer,
        drawn,
        ..Faults::default()
    };
    for timer in [(40_000, false), (60_000, true), (100_000, true)] {
        assert!(unclear_on(&hall, &[slow_timer(timer)]) > 0, "{timer:?}");
    }
}

#[test]
fn small_frames_that_go_early_are_allowed_for() {
    // Level 1 has the link's largest frame, level 2 one of 200 bytes, level 3 smallest ones: 18 of them are let go at once.
    let table = b"   1   1   2   100 1    400     9000\n   1   1   2   100 2    400     9000\n   1   1   2   100 3   9000     9000\n";
    let orders = b" 1     1      100    1542 1542     900  1   1 1\n 1     2      100     200  200     900  1   1 2\n 1     3      100    2520   84    9000  1   1 3\n";
    let folder = Temporary::with(table, orders);
    let hall = hall_of(&folder.word());
    assert_eq!(hall.flows.len(), 3);
    let Found { limits, seen } = fine(&hall);
    let bound = SCALE.nanos(hall.bounds[1].unwrap().delay);
    let stay = seen[1].longest.unwrap().length;
    // 1,542 bytes at 100 Mbit/s are 123.36 µs; 84 and 200, which the bound counts, at 99,900 kbit/s 22.74.
    let early: Vec<u64> = limits.iter().map(|limit| limit.early).collect();
    assert_eq!(early, [0, SCALE.nanos(101), 0]);
    assert!(bound < stay && stay <= bound + early[1]);
}

#[test]
fn what_goes_early_is_sent_at_the_links_speed() {
    // Level 1 leaves a fifth: 123.36 µs for 1,542 bytes at 100 Mbit/s, 113.6 for 284 at 20,000 kbit/s.
    let table = b"   1   1   2   100 1    400     9000\n   1   1   2   100 2    900     9000\n   1   1   2   100 3   9000     9000\n";
    let orders = b" 1     1    80000    1542 1542     900  1   1 1\n 1     2      100     200  200     900  1   1 2\n 1     3      100     840   84    9000  1   1 3\n";
    let folder = Temporary::with(table, orders);
    let hall = hall_of(&folder.word());
    assert_eq!(hall.flows.len(), 3);
    let limits = roads(&hall)[0].limits(&hall, SCALE);
    let early: Vec<u64> = limits.iter().map(|limit| limit.early).collect();
    assert_eq!(early, [0, SCALE.nanos(10), 0]);
    let residuals: Vec<u64> = limits.iter().map(|limit| limit.residual).collect();
    assert_eq!(residuals, [100_000, 20_000, 19_900]);
}

#[test]
fn no_stay_passes_its_bound_on_random_halls() {
    let (mut halls, mut stays, mut passed) = (0, 0, 0);
    for index in 0..400 {
        let Some(drawn) = tight_hall(&mut Rng::new(25, index)) else {
            continue;
        };
        if drawn.queues.iter().any(|queue| queue.level > MOST_LEVELS) {
            continue;
        }
        let hall = Hall::new(drawn.queues, drawn.flows);
        if hall.flows.is_empty() || hall.span() > 20_000 {
            continue;
        }
        halls += 1;
        for stay in fine(&hall).seen.iter().filter_map(|seen| seen.longest) {
            let bound = SCALE.nanos(hall.bounds[stay.queue].unwrap().delay);
            let length = stay.length;
            stays += 1;
            passed += u64::from(length > bound);
            assert!(
                length <= bound + stay.added,
                "hall {index}: {length} of {bound}"
            );
        }
    }
    println!("{halls} halls, {stays} queues, {passed} passed their bound by frames that go early");
    assert!(halls > 20 && stays > 100);
}
