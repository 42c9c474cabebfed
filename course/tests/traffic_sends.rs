//! SENDS as it is read, and conformance.

use course::traffic::conform::{breaches, Breach, What};
use course::traffic::frames::Send;
use course::traffic::sends::{expand, read, MOST_FRAMES};
use halls::rng::Rng;
use halls::sources::{self, Pattern};
use plain::orders::{Flow, Hop};

fn flow(number: u64, rate: u64, burst: u64, frame: u64) -> Flow {
    Flow {
        number,
        rate,
        burst,
        frame,
        deadline: 1_000,
        hops: vec![Hop { link: 1, level: 1 }],
    }
}

fn frames(text: &str, flows: &[Flow]) -> Vec<(u64, u64, u64)> {
    let list = expand(&read(text, flows, &[]).unwrap(), flows, 100).unwrap();
    let of = |send: &Send| (send.instant, flows[send.flow].number, send.bytes);
    list.frames.iter().map(of).collect()
}

#[test]
fn lines_stand_for_frames() {
    let flows = [flow(7, 1_000, 3_084, 1_542), flow(8, 8_000, 250, 100)];
    assert_eq!(frames("", &flows), []);
    assert_eq!(frames("# nothing\n\n  # more\n", &flows), []);
    let text = "5 7 1542 # one\r\n\t2 8 84 x 2\n0 7 100 x 3 every 4";
    let list = [
        (0, 7, 100),
        (2, 8, 84),
        (2, 8, 84),
        (4, 7, 100),
        (5, 7, 1_542),
        (8, 7, 100),
    ];
    assert_eq!(frames(text, &flows), list);
    assert_eq!(frames(&format!("\u{feff}{text}"), &flows), list);
}

/// The whole burst at once, then a largest frame at each first instant that the bucket allows.
#[test]
fn greedy_is_the_worst_a_bucket_allows() {
    let flows = [flow(7, 1_000, 3_084, 1_542), flow(8, 8_000, 250, 100)];
    assert_eq!(
        frames("greedy 7 from 3 to 24675", &flows),
        [
            (3, 7, 1_542),
            (3, 7, 1_542),
            (12_339, 7, 1_542),
            (24_675, 7, 1_542)
        ]
    );
    // 268 bytes in frames of at most 100: the last but one leaves 84 for the last.
    let flows = [flow(7, 1_000, 3_084, 1_542), flow(8, 8_000, 268, 100)];
    assert_eq!(
        frames("greedy 8 from 0 to 200", &flows),
        [
            (0, 8, 100),
            (0, 8, 84),
            (0, 8, 84),
            (100, 8, 100),
            (200, 8, 100)
        ]
    );
    // 66 bytes are no frame: they stay in the bucket.
    let others = [flow(8, 8_000, 166, 100)];
    assert_eq!(
        frames("greedy 8 from 0 to 40", &others),
        [(0, 8, 100), (34, 8, 100)]
    );
    // 625 bytes a µs fill the bucket at each instant: it holds two frames.
    let fast = [flow(8, 5_000_000, 168, 84)];
    assert_eq!(
        frames("greedy 8 from 0 to 1", &fast),
        [(0, 8, 84), (0, 8, 84), (1, 8, 84), (1, 8, 84)]
    );
    // Without an end: the last instant named, 900, and twice the span of 100.
    let list = frames("greedy 8 from 0\n900 7 100", &flows);
    assert_eq!(list.last(), Some(&(1_100, 8, 100)));
}

fn mistake(text: &str) -> String {
    let flows = [flow(7, 1_000, 3_084, 1_542)];
    let found = read(text, &flows, &[]).and_then(|lines| expand(&lines, &flows, 100).map(|_| ()));
    found.unwrap_err().to_string()
}

/// What is said of each SENDS.
const MISTAKES: [(&str, &str); 13] = [
    ("0 7\n", "1:4: bytes: missing"),
    ("# x\n0 9 100\n", "2:3: flow 9 isn't held after the orders"),
    (
        "0 7 1,542\n",
        "1:5: bytes: `1,542`: digits alone, without separators",
    ),
    ("0 7 x 2\n", "1:5: bytes: `x` is no number"),
    ("-1 7 84\n", "1:1: instant: `-1` is no number"),
    ("0 7 0\n", "1:5: bytes: 0 is out of range (1 to 65,535)"),
    ("0 7 84 x\n", "1:9: count: missing"),
    (
        "0 7 84 x 0\n",
        "1:10: count: 0 is out of range (1 to 5,000,000)",
    ),
    ("0 7 84 every 3\n", "1:8: `every` isn't expected here"),
    ("greedy 7\n", "1:9: `from INSTANT` is expected here"),
    (
        "greedy 7 from 5 to 4\n",
        "1:20: instant: 4 is out of range (5 to 1,000,000,000,000)",
    ),
    (
        "greedy 7 from 5 until 9\n",
        "1:17: `until` isn't expected here",
    ),
    (
        "0 99999999999999999999 84\n",
        "1:3: flow: 99999999999999999999 is out of range (1 to 65,535)",
    ),
];

#[test]
fn mistakes_are_named_with_line_and_column() {
    for (text, expected) in MISTAKES {
        assert_eq!(mistake(text), expected, "{text}");
    }
    let too_many = format!("0 7 84\n0 7 84 x {MOST_FRAMES}\n");
    assert_eq!(
        mistake(&too_many),
        "2:1: more than 5,000,000 frames up to this line"
    );
    let too_long = "greedy 7 from 0 to 1000000000000\n";
    assert_eq!(
        mistake(too_long),
        "1:1: more than 5,000,000 frames up to this line"
    );
}

fn found(text: &str, flows: &[Flow]) -> Vec<Breach> {
    let lines = read(text, flows, &[]).unwrap();
    breaches(flows, &expand(&lines, flows, 0).unwrap().frames)
}

#[test]
fn a_bucket_met_exactly_passes() {
    let flows = [flow(7, 1_000, 1_542, 1_542), flow(8, 1_000, 1_542, 1_542)];
    assert_eq!(found("1 7 1542\n12337 7 1542\n", &flows), []);
    let broken = found("0 8 1542\n1 7 1542\n12336 7 1542\n", &flows);
    let words: Vec<String> = broken.iter().map(Breach::to_string).collect();
    assert_eq!(
        words,
        ["line 3: flow 7, instants 1 to 12,336: 24,672,000 above 24,671,000; may go at 12,337"]
    );
    // A long pause fills the bucket and no more.
    let words = found("0 7 84\n900000 7 1542 x 2\n", &flows)[0].to_string();
    let expected = "line 2: flow 7, instants 900,000 to 900,000: 24,672,000 above 12,336,000; may go at 912,336";
    assert_eq!(words, expected);
}

#[test]
fn frames_have_84_bytes_to_the_largest() {
    let flows = [flow(7, 1_000, 3_084, 1_000)];
    assert_eq!(found("0 7 84\n1 7 1000\n", &flows), []);
    let words: Vec<String> = ["0 7 83\n", "0 7 1001\n"]
        .iter()
        .map(|text| found(text, &flows)[0].to_string())
        .collect();
    assert_eq!(
        words,
        [
            "line 1: flow 7: a frame of 83 bytes; its frames have 84 to 1,000",
            "line 1: flow 7: a frame of 1,001 bytes; its frames have 84 to 1,000"
        ]
    );
}

/// Every window, one by one.
fn conforms_plainly(flow: &Flow, list: &[Send]) -> bool {
    list.iter().enumerate().all(|(first, start)| {
        let mut bytes = 0;
        list[first..].iter().all(|send| {
            bytes += send.bytes;
            8000 * bytes <= 8000 * flow.burst + flow.rate * (send.instant - start.instant)
        })
    })
}

/// A flow and what its source sends; every other time some frames go too early.
fn random_source(rng: &mut Rng) -> (Flow, Vec<sources::Send>) {
    let rate = rng.pick(&[1, 7, 500, 1_000, 20_000, 900_000]);
    let frame = rng.between(84, 1_542);
    let one = flow(7, rate, frame + rng.between(0, 3_000), frame);
    let pattern = Pattern::random(rng, 500);
    let mut list = sources::sends(rng, 0, &one, pattern, 2_000);
    list.truncate(60);
    if rng.once_in(2) && !list.is_empty() {
        let (at, by) = (rng.index(list.len()), rng.pick(&[1, 2, 30, 500]));
        for send in &mut list[at..] {
            send.instant = send.instant.saturating_sub(by);
        }
        list.sort_by_key(|send| send.instant);
    }
    (one, list)
}

/// The window is broken by that frame and no earlier one; the instant named is the first at which
/// the frame may go. Lines are indices here.
fn breach_is_right(one: &Flow, list: &[Send], breach: &Breach) {
    let What::Window {
        from,
        to,
        used,
        allowed,
        may_go,
    } = breach.what
    else {
        panic!("{breach}");
    };
    let upto = &list[..=breach.line];
    let inside = upto
        .iter()
        .filter(|send| (from..=to).contains(&send.instant));
    assert_eq!(used, inside.map(|send| 8000 * send.bytes).sum::<u64>());
    assert_eq!(allowed, 8000 * one.burst + one.rate * (to - from));
    assert!(used > allowed && conforms_plainly(one, &upto[..breach.line]));
    for (instant, passes) in [(may_go, true), (may_go - 1, false)] {
        let mut moved = upto.to_vec();
        moved[breach.line].instant = instant;
        assert_eq!(conforms_plainly(one, &moved), passes, "{breach}");
    }
}

/// Against the windows one by one and against the checker.
#[test]
fn conformance_is_that_of_all_windows() {
    let (mut kept, mut broken) = (0, 0);
    for index in 0..3_000 {
        let (one, list) = random_source(&mut Rng::new(8, index));
        let of_course: Vec<Send> = list
            .iter()
            .enumerate()
            .map(|(line, send)| Send {
                instant: send.instant,
                flow: 0,
                bytes: send.bytes,
                line,
            })
            .collect();
        let found = breaches(std::slice::from_ref(&one), &of_course);
        assert_eq!(found.is_empty(), sources::conforms(&one, &list));
        assert_eq!(found.is_empty(), conforms_plainly(&one, &of_course));
        match found.first() {
            None => kept += 1,
            Some(breach) => {
                broken += 1;
                breach_is_right(&one, &of_course, breach);
            }
        }
    }
    assert!(kept > 300 && broken > 300, "{kept} kept, {broken} broken");
}
