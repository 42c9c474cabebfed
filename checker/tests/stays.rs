//! W-208 in the run: no stay is shorter than the shortest sending time, frames that were held up come bunched, and the search
//! finds what is missing where bounds don't count that.

use checker::sim::{Arrivals, Fault, Network, Observer, Seen};
use checker::simulate::{run_by, WITHOUT_GROWTH};
use halls::rng::Rng;
use halls::sources::{conforms, sends, Pace, Pattern, Send, Sizes};
use halls::tables::{tighten_by, Bounds};
use plain::formula::shortest_sending;
use plain::orders::{Flow, Hop};
use plain::table::Queue;

/// A level of a link, with room for anything.
fn queue(link: u64, level: u64, speed: u64) -> Queue {
    Queue {
        link,
        from: link,
        to: link + 1,
        speed,
        level,
        threshold: 100_000,
        buffer: 1_000_000,
        ..Queue::default()
    }
}

fn flow(number: u64, rate: u64, burst: u64, frame: u64, hops: &[(u64, u64)]) -> Flow {
    let hop = |&(link, level): &(u64, u64)| Hop { link, level };
    Flow {
        number,
        rate,
        burst,
        frame,
        deadline: 1_000_000,
        hops: hops.iter().map(hop).collect(),
    }
}

/// The stays in the order in which they ended.
#[derive(Default)]
struct Stays(Vec<u64>);

impl Observer for Stays {
    fn left(&mut self, _queue: usize, _flow: usize, reached: u64, gone: u64) {
        self.0.push(gone - reached);
    }
}

/// The stays of frames of 84 bytes that reach a link of this speed at these instants.
fn stays(speed: u64, instants: &[u64]) -> Vec<u64> {
    let queues = [queue(1, 1, speed)];
    let flows = [flow(1, 1_000, 1_000_000, 84, &[(1, 1)])];
    let send = |&instant: &u64| Send {
        instant,
        flow: 0,
        bytes: 84,
    };
    let list: Vec<Send> = instants.iter().map(send).collect();
    let mut stays = Stays::default();
    Network::new(&queues, &flows)
        .run_before(
            &list,
            Arrivals::SourcesLast,
            &mut Rng::new(1, 1),
            &mut stays,
        )
        .unwrap();
    stays.0
}

/// A frame alone stays just that long. One that finds another before it stays longer, also where it starts in mid-interval
/// and several leave within one µs.
#[test]
fn the_shortest_stay() {
    for speed in [1, 10, 97, 100, 103, 671, 672, 1_000, 10_000] {
        let least = shortest_sending(u128::from(speed)) as u64;
        assert_eq!(stays(speed, &[5]), [least], "{speed} Mbit/s");
        for gap in 0..20 {
            let list = [5, 5 + gap, 5 + 2 * gap, 5 + 3 * gap];
            assert!(stays(speed, &list).iter().all(|&stay| stay >= least));
        }
    }
    assert_eq!(stays(100, &[5, 5, 11]), [7, 14, 15]);
    assert_eq!(
        stays(10_000, &[5; 16]),
        [[1; 14].as_slice(), &[2; 2]].concat()
    );
}

/// A fast link with two levels, then a slow one. Flow 1 sends one long burst over the first link, at level 1; flow 2 has the
/// smallest burst there is and goes on.
fn funnel() -> (Vec<Queue>, [Flow; 2]) {
    let queues = vec![queue(1, 1, 100), queue(1, 2, 100), queue(2, 1, 10)];
    let flows = [
        flow(1, 100, 40_000, 1_250, &[(1, 1)]),
        flow(2, 5_000, 84, 84, &[(1, 2), (2, 1)]),
    ];
    (queues, flows)
}

/// Both start at 0, flow 2 sends on as fast as it may.
fn held_up(queues: &[Queue], flows: &[Flow; 2]) -> Result<Vec<Seen>, Fault> {
    let mut rng = Rng::new(1, 1);
    let mut list = Vec::new();
    for (index, pace) in [Pace::Once, Pace::Greedy].into_iter().enumerate() {
        let sizes = Sizes::Largest;
        let pattern = Pattern {
            start: 0,
            sizes,
            pace,
        };
        let sent = sends(&mut rng, index, &flows[index], pattern, 6_000);
        assert!(conforms(&flows[index], &sent));
        list.extend(sent);
    }
    list.sort_by_key(|send| send.instant);
    Network::new(queues, flows).run(&list, Arrivals::SourcesLast, &mut rng)
}

/// The burst of 40,000 bytes takes 3,200 µs, in which flow 2 sends a frame every 135 µs: 24 of them come together. Its
/// threshold is 8000 × (40,084 + 84) / 99,900 = 3,216.7, so 3,210 of 3,217 µs count: 2,007 bytes, 1,740 µs at the second
/// link. The 84 bytes of its source would give 135.
#[test]
fn frames_that_were_held_up_come_bunched() {
    let (mut right, flows) = funnel();
    let of: Vec<&Flow> = flows.iter().collect();
    tighten_by(&mut right, &of, Bounds::RIGHT);
    let seen = held_up(&right, &flows).unwrap();
    assert_eq!((seen[1].stay, seen[1].backlog), (3_207, 24 * 84));
    let limits = |queues: &[Queue]| (queues[2].threshold, queues[2].buffer);
    assert_eq!(limits(&right), (1_740, 2_133));
    assert_eq!((seen[2].stay, seen[2].backlog), (1_573, 2_016));

    let (mut wrong, _) = funnel();
    let delays = Bounds {
        delays: WITHOUT_GROWTH,
        ..Bounds::RIGHT
    };
    tighten_by(&mut wrong, &of, delays);
    assert_eq!(wrong[2].threshold, 135);
    assert!(matches!(
        held_up(&wrong, &flows),
        Err(Fault::Late { queue: 2, .. })
    ));
    let backlogs = Bounds {
        backlogs: WITHOUT_GROWTH,
        ..Bounds::RIGHT
    };
    tighten_by(&mut wrong, &of, backlogs);
    assert_eq!(limits(&wrong), (1_740, 126));
    assert!(matches!(
        held_up(&wrong, &flows),
        Err(Fault::Over { queue: 2, .. })
    ));
}

/// With the source's burst at every hop thresholds are too small, and so are buffers.
#[test]
fn growth_left_out_is_found() {
    let delays = Bounds {
        delays: WITHOUT_GROWTH,
        ..Bounds::RIGHT
    };
    let backlogs = Bounds {
        backlogs: WITHOUT_GROWTH,
        ..Bounds::RIGHT
    };
    let found = |bounds| {
        let mut halls = run_by(1, 300, bounds, |trial| trial);
        halls.find_map(|found| found.unwrap())
    };
    assert!(matches!(found(delays), Some(Fault::Late { .. })));
    assert!(matches!(found(backlogs), Some(Fault::Over { .. })));
}
