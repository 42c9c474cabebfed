//! The short seeded runs, and the simulator on runs small enough to follow by hand.

use checker::book::Bits;
use checker::rounds::Bars;
use checker::sim::{Arrivals, Fault, Network, Observer, Seen};
use checker::{compare, simulate, vectors};
use halls::rng::Rng;
use halls::sources::{conforms, sends, Pace, Pattern, Send, Sizes};
use plain::orders::{Flow, Hop};
use plain::table::Queue;
use std::path::Path;

#[test]
fn every_version_prints_the_stored_cases() {
    let root = Path::new(env!("CARGO_MANIFEST_DIR")).join("..");
    assert!(vectors::run(&root.join("tests/vectors")).unwrap());
}

#[test]
fn versions_agree_and_every_code_occurs() {
    let report = compare::run(1, 600, false).unwrap();
    assert_eq!(report.missing(), Vec::<u64>::new());
    assert_eq!(report.missing_kinds(), Vec::<String>::new());
    assert!(report.calls.answers.contains_key(&42));
    compare::run(2, 20, true).unwrap();
}

/// A bar is missed above its most or below its least, by what is no number, and where nothing was judged.
#[test]
fn bars_are_judged() {
    let judged = |values: &[f64], judge: fn(&mut Bars, String, f64, f64)| {
        let mut bars = Bars::default();
        for &value in values {
            judge(&mut bars, "ratio".to_string(), value, 1.2);
        }
        bars.print()
    };
    assert!(judged(&[0.9, 1.2], Bars::at_most));
    assert!(!judged(&[0.9, 1.21], Bars::at_most));
    assert!(judged(&[1.2, 1.3], Bars::at_least));
    assert!(!judged(&[1.19, 1.3], Bars::at_least));
    for judge in [Bars::at_most, Bars::at_least] {
        assert!(!judged(&[f64::NAN], judge));
        assert!(!judged(&[], judge));
    }
}

#[test]
fn no_frame_is_late() {
    let report = simulate::run(8, 40).unwrap();
    assert!(report.halls > 10);
    assert!(report.changed > 10, "{} flows changed", report.changed);
    assert!(report.journey.limit > 0, "no way with a fixed delay");
    assert!(
        report.best_effort[1] > 0,
        "no best-effort frame at an arrival"
    );
    let [best_effort, growth] = &report.added;
    assert!(
        best_effort.seen > 0,
        "no stay that needs its best-effort frame"
    );
    assert!(growth.seen > 0, "no stay that needs its burst growth");
    assert!(
        report.shortest[0] > 0,
        "no stay as short as the shortest sending"
    );
}

fn queue(link: u64, level: u64, threshold: u64, buffer: u64) -> Queue {
    Queue {
        link,
        from: link,
        to: link + 1,
        speed: 100,
        level,
        threshold,
        buffer,
        fixed_delay: 0,
        best_effort_frame: 0,
    }
}

fn flow(number: u64, hops: &[(u64, u64)]) -> Flow {
    let hops = hops
        .iter()
        .map(|&(link, level)| Hop { link, level })
        .collect();
    Flow {
        number,
        rate: 1_000,
        burst: 3_084,
        frame: 1_542,
        deadline: 1,
        hops,
    }
}

fn send(&(instant, flow, bytes): &(u64, usize, u64)) -> Send {
    Send {
        instant,
        flow,
        bytes,
    }
}

fn run(queues: &[Queue], flows: &[Flow], list: &[(u64, usize, u64)]) -> Result<Vec<Seen>, Fault> {
    let list: Vec<Send> = list.iter().map(send).collect();
    Network::new(queues, flows).run(&list, Arrivals::SourcesLast, &mut Rng::new(1, 1))
}

/// The instants at which each queue holds frames, and each frame's way.
#[derive(Default)]
struct Watched {
    held: [Vec<u64>; 2],
    ways: Vec<(u64, u64)>,
}

impl Observer for Watched {
    fn holds(&mut self, instant: u64, queue: usize, _frames: usize, _bytes: u64) {
        self.held[queue].push(instant);
    }

    fn arrives(&mut self, _flow: usize, sent: u64, reached: u64) {
        self.ways.push((sent, reached));
    }
}

/// 1,542 bytes take 123.36 µs at 100 Mbit/s: the frame has left 124 µs later, the next one, which
/// starts in mid-interval, 247 µs later.
#[test]
fn frames_follow_each_other_in_mid_interval() {
    let queues = [queue(1, 1, 247, 3_084)];
    let flows = [flow(1, &[(1, 1)])];
    let one = run(&queues, &flows, &[(5, 0, 1_542)]).unwrap();
    assert_eq!((one[0].stay, one[0].backlog), (124, 1_542));
    let two = run(&queues, &flows, &[(5, 0, 1_542), (5, 0, 1_542)]).unwrap();
    assert_eq!((two[0].stay, two[0].backlog), (247, 3_084));
}

#[test]
fn late_and_over_are_found() {
    let flows = [flow(1, &[(1, 1)])];
    let list = [(5, 0, 1_542), (5, 0, 1_542)];
    let late = run(&[queue(1, 1, 246, 3_084)], &flows, &list);
    assert_eq!(
        late.err(),
        Some(Fault::Late {
            queue: 0,
            instant: 251
        })
    );
    let over = run(&[queue(1, 1, 247, 3_083)], &flows, &list);
    assert_eq!(
        over.err(),
        Some(Fault::Over {
            queue: 0,
            instant: 5
        })
    );
}

/// A lower frame under way isn't broken off; a higher one goes before those that wait.
#[test]
fn strict_priority_without_preemption() {
    let queues = [queue(1, 1, 10_000, 10_000), queue(1, 2, 10_000, 10_000)];
    let flows = [flow(1, &[(1, 1)]), flow(2, &[(1, 2)])];
    let list = [(0, 1, 1_250), (0, 1, 1_250), (1, 0, 1_250)];
    let seen = run(&queues, &flows, &list).unwrap();
    assert_eq!((seen[0].stay, seen[1].stay), (199, 300));
    let together = run(&queues, &flows, &[(0, 1, 1_250), (0, 0, 1_250)]).unwrap();
    assert_eq!((together[0].stay, together[1].stay), (100, 200));
}

#[test]
fn frames_go_on_at_the_instant_they_left() {
    let queues = [queue(1, 1, 10_000, 10_000), queue(2, 1, 10_000, 10_000)];
    let seen = run(&queues, &[flow(1, &[(1, 1), (2, 1)])], &[(3, 0, 1_250)]).unwrap();
    assert_eq!((seen[0].stay, seen[1].stay), (100, 100));
}

/// 1,250 bytes take 100 µs; on the first cable they are 7 µs, on the second, the last, 5, and in no queue meanwhile.
#[test]
fn frames_are_on_a_cable_for_its_fixed_delay() {
    let mut queues = [queue(1, 1, 101, 1_250), queue(2, 1, 101, 1_250)];
    queues[0].fixed_delay = 7;
    queues[1].fixed_delay = 5;
    let flows = [flow(1, &[(1, 1), (2, 1)])];
    let list = [(3, 0, 1_250), (500, 0, 1_250)].map(|frame| send(&frame));
    let mut watched = Watched::default();
    let seen = Network::new(&queues, &flows)
        .run_before(
            &list,
            Arrivals::SourcesLast,
            &mut Rng::new(1, 1),
            &mut watched,
        )
        .unwrap();
    assert_eq!((seen[0].stay, seen[1].stay), (100, 100));
    let held = [(3..103).chain(500..600), (110..210).chain(607..707)];
    assert_eq!(watched.held, held.map(Vec::from_iter));
    assert_eq!(watched.ways, [(3, 215), (500, 712)]);
}

#[test]
fn sources_conform_and_use_their_bucket() {
    let mut rng = Rng::new(9, 9);
    for index in 0..2_000 {
        let frame = rng.between(84, 1_542);
        let burst = rng.between(frame, 9_000);
        let rate = rng.between(1, 100_000);
        let flow = Flow {
            rate,
            burst,
            frame,
            ..flow(1, &[(1, 1)])
        };
        let pattern = Pattern::random(&mut rng, 500);
        let list = sends(&mut rng, 0, &flow, pattern, 3_000);
        assert!(conforms(&flow, &list), "source {index}");
        let mut more = list.clone();
        let start = list[0].instant;
        more.insert(
            0,
            Send {
                instant: start,
                flow: 0,
                bytes: 84,
            },
        );
        let at_once: u64 = more
            .iter()
            .filter(|send| send.instant == start)
            .map(|s| s.bytes)
            .sum();
        assert!(at_once <= burst || !conforms(&flow, &more));
    }
    let whole = Flow {
        burst: 10_000,
        ..flow(1, &[(1, 1)])
    };
    let pattern = Pattern {
        start: 0,
        sizes: Sizes::Largest,
        pace: Pace::Once,
    };
    let list = sends(&mut rng, 0, &whole, pattern, 10);
    assert_eq!(list.iter().map(|send| send.bytes).sum::<u64>(), 10_000);
}

/// Whether a load's line is a change that is meant to be refused; the first one comes after so many registrations.
fn refused_change(first: usize, index: usize) -> bool {
    index >= first && (index - first + 1).is_multiple_of(checker::loads::REFUSED_ONE_IN)
}

/// The benchmark's loads are legal batches that do what they are meant to.
#[test]
fn loads_answer_as_meant() {
    for load in checker::loads::loads(1) {
        let text = load.text(load.lines.len());
        assert!(text.len() <= 60_000 && load.lines.len() <= 2_000);
        let mut answers = vec![0; 40_000];
        let outcome = checker::book::batch::<Bits>(&load.table, &text, &mut answers);
        assert_eq!(outcome, (0, load.lines.len() as u32));
        for (index, answer) in answers.chunks(20).take(load.lines.len()).enumerate() {
            let code: &[u8] = match &load.name[..1] {
                "b" if index >= 256 => b" 30",
                "c" => b" 10",
                "e" if refused_change(load.steady.start, index) => b" 23",
                _ => b"  0",
            };
            assert_eq!(&answer[6..9], code, "{} line {}", load.name, index + 1);
            if load.name.starts_with('f') && index >= load.steady.start {
                assert_eq!(&answer[9..13], b" 256", "line {}", index + 1);
            }
        }
    }
}
