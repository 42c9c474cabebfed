//! `course wire`'s sources conform by the clock, however late the machine lets them send; and when a frame has left a link.

mod common;

use common::example_text;
use course::wire::link::{Link, Sent};
use course::wire::scale::{usual, whole_for, Nanos, Scale};
use course::wire::source::Source;
use halls::rng::Rng;
use plain::orders::Flow;

/// A frame that was sent: between which moments, and its bytes.
type Put = (Nanos, Nanos, u64);

fn flow(rate: u64, burst: u64, frame: u64) -> Flow {
    Flow {
        number: 7,
        rate,
        burst,
        frame,
        deadline: 1,
        hops: Vec::new(),
    }
}

fn drawn_flow(rng: &mut Rng) -> Flow {
    let frame = rng.between(84, 1542);
    let burst = rng.between(frame, 6_000);
    let rate = rng.pick(&[1, 64, 800, 20_000, 10_000_000]);
    flow(rate, burst, frame)
}

/// What a source sends where each frame goes up to `late` after it may, and each call takes up to `call`.
fn sent(rng: &mut Rng, mut source: Source, late: Nanos, call: Nanos, most: usize) -> Vec<Put> {
    let mut list = Vec::new();
    while let Some(due) = source.due().filter(|_| list.len() < most) {
        let before = due + rng.between(0, late);
        let after = before + rng.between(0, call);
        list.push((before, after, source.next_bytes()));
        source.sent(before, after);
    }
    list
}

/// The first window of these frames that holds more than the bucket allows, wherever each frame came between its moments.
fn breach(flow: &Flow, scale: Scale, list: &[Put]) -> Option<(usize, usize)> {
    let byte = 8_000_000 * u128::from(scale.slow);
    for first in 0..list.len() {
        let mut bytes = 0;
        for last in first..list.len() {
            bytes += u128::from(list[last].2);
            let window = list[last].0.saturating_sub(list[first].1);
            let allowed =
                byte * u128::from(flow.burst) + u128::from(flow.rate) * u128::from(window);
            if byte * bytes > allowed {
                return Some((first, last));
            }
        }
    }
    None
}

const FROM: Nanos = 5_000;

#[test]
fn conforms_over_every_window() {
    let mut frames = 0;
    for index in 0..300 {
        let mut rng = Rng::new(3, index);
        let flow = drawn_flow(&mut rng);
        let scale = Scale {
            slow: rng.pick(&[1, 10, 100, 1000]),
        };
        let source = Source::new(&flow, scale, FROM, Nanos::MAX);
        let (late, call) = (rng.pick(&[0, 1_000, 10_000_000]), rng.pick(&[0, 50_000]));
        let list = sent(&mut rng, source, late, call, 120);
        assert_eq!(breach(&flow, scale, &list), None, "{flow:?}");
        let sizes = list
            .iter()
            .all(|(_, _, bytes)| (84..=flow.frame).contains(bytes));
        assert!(sizes, "{flow:?}");
        frames += list.len();
    }
    assert!(frames > 10_000);
}

#[test]
fn sends_its_burst_at_once_and_then_as_soon_as_it_may() {
    for index in 0..200 {
        let mut rng = Rng::new(4, index);
        let flow = drawn_flow(&mut rng);
        let scale = Scale { slow: 100 };
        let list = sent(
            &mut rng,
            Source::new(&flow, scale, FROM, Nanos::MAX),
            0,
            0,
            100,
        );
        let at_once = list.iter().take_while(|(before, ..)| *before == FROM);
        let burst: u64 = at_once.map(|(_, _, bytes)| bytes).sum();
        assert!(burst <= flow.burst && flow.burst < burst + 84, "{flow:?}");
        // Any frame that isn't of the burst, a ns earlier, breaks a window.
        for late in 0..list.len() {
            if list[late].0 > FROM {
                let mut sooner = list[..=late].to_vec();
                sooner[late].0 -= 1;
                assert!(breach(&flow, scale, &sooner).is_some(), "{flow:?} {late}");
            }
        }
    }
}

#[test]
fn a_broken_bucket_sends_so_many_more_at_once() {
    let flow = flow(1_000, 3_084, 1_542);
    let scale = Scale { slow: 10 };
    let source = |beyond| Source::new(&flow, scale, FROM, FROM).breaking(beyond);
    let mut rng = Rng::new(5, 0);
    for beyond in [0, 1, 8] {
        let list = sent(&mut rng, source(beyond), 0, 0, 100);
        assert_eq!(list, vec![(FROM, FROM, 1_542); 2 + beyond as usize]);
        let broken = breach(&flow, scale, &list);
        assert_eq!(broken.is_some(), beyond > 0);
    }
}

#[test]
fn nothing_but_the_burst_goes_after_the_end() {
    // 84 bytes at 8 kbit/s are a frame every 84 ms.
    let flow = flow(8, 168, 84);
    let until = |micros: u64| {
        let scale = Scale { slow: 1 };
        let source = Source::new(&flow, scale, FROM, FROM + scale.nanos(micros));
        sent(&mut Rng::new(6, 0), source, 0, 0, 100).len()
    };
    let frames = [0, 83_999, 84_000, 167_999, 168_000].map(until);
    assert_eq!(frames, [2, 2, 3, 3, 4]);
}

#[test]
fn a_frame_has_left_when_its_last_bit_is_sent() {
    // 1,542 bytes take 123,360 ns at 100 Mbit/s, 84 take 6,720.
    let mut link = Link::new(Scale { slow: 1 }, 100);
    let sent = |end, late, lost, early| Sent {
        end,
        late,
        lost,
        early,
    };
    // Let go at once, 300 ns after it was put into its queue.
    let first = link.dequeued(1_000, 1_300, 1_542);
    assert_eq!(first, sent(124_660, 300, 300, 0));
    // The next waits for it; the kernel lets go 40 ns late.
    let second = link.dequeued(2_000, 124_700, 1_542);
    assert_eq!(second, sent(248_060, 40, 340, 0));
    // A small one is let go early, and is sent behind the one before.
    let third = link.dequeued(125_000, 150_000, 84);
    assert_eq!(third, sent(254_780, 0, 340, 98_060));
    // One that comes when all is sent, but another has waited since 126,000: the link stood idle from the end of the last on.
    let fourth = link.dequeued(126_000, 254_880, 84);
    assert_eq!(fourth, sent(261_600, 100, 440, 0));
    // After a pause only what it waits itself counts.
    let fifth = link.dequeued(900_000, 900_010, 84);
    assert_eq!(fifth, sent(906_730, 10, 10, 0));
}

#[test]
fn slow_motion_in_whole_bytes() {
    let scale = |slow| Scale { slow };
    assert_eq!(scale(100).nanos(371), 37_100_000);
    assert_eq!(scale(100).sending(1_542, 100), 12_336_000);
    // 672 bits at 3 Mbit/s are 224 µs; 673 would need rounding up.
    assert_eq!(scale(1).sending(84, 3), 224_000);
    assert_eq!(scale(1).sending(85, 3), 226_667);
    assert_eq!(scale(100).bytes_per_second(10), Some(12_500));
    assert_eq!(scale(7).bytes_per_second(100), None);
    assert_eq!(scale(100).shown(24_672_000), "246.8");
    assert_eq!(scale(1).shown(1_542_000), "1,542.0");
    // 100, or as much more as brings the fastest link down to 10 Mbit/s.
    let usual = [&[10, 100][..], &[1_000], &[100, 2_500], &[10_000]].map(usual);
    assert_eq!(usual, [100, 100, 250, 1_000]);
    assert_eq!(whole_for(&[10, 100, 1_000], 100), Some(scale(100)));
    assert_eq!(whole_for(&[10, 100], 7), Some(scale(8)));
    assert_eq!(whole_for(&[1], 6_250), Some(scale(6_250)));
    assert_eq!(whole_for(&[1], 6_251), None);
    // Both examples can be sent in the usual motion.
    let hall = example_text("hall/table.txt");
    let speeds: Vec<u64> = hall
        .lines()
        .map(|line| line[12..18].trim().parse().unwrap())
        .collect();
    assert_eq!(whole_for(&speeds, 100), Some(scale(100)));
}
