//! The run with laptops' frames beside one that goes slot by slot, and in which order frames go.

mod common;

use common::runs::{flow, link, read, recorded, Record};
use common::slow::{Slow, Started, Stayed};
use course::traffic::frames::{BestEffort, Laptop, Send, Sends, Stay};
use course::traffic::hall::Hall;
use course::traffic::sends;
use halls::rng::Rng;

/// Three slow links in a row, and flows over some of them.
fn slow_hall(rng: &mut Rng) -> Hall {
    let mut queues = Vec::new();
    for number in 1..=3 {
        let (speed, levels) = (rng.between(1, 3), rng.between(1, 3));
        let delay = rng.pick(&[0, 0, 1, 7]);
        queues.extend(link(number, speed, levels, delay, rng.pick(&[0, 84, 84])));
    }
    let levels: Vec<u64> = (1..=3)
        .map(|number| queues.iter().filter(|queue| queue.link == number).count() as u64)
        .collect();
    let mut flows = Vec::new();
    for number in 1..=rng.between(1, 5) {
        let (first, last) = (rng.between(1, 3), rng.between(1, 3));
        let path = first.min(last)..=first.max(last);
        let hops: Vec<(u64, u64)> = path
            .map(|link| (link, rng.between(1, levels[link as usize - 1])))
            .collect();
        flows.push(flow(number, 200, 84, &hops));
    }
    Hall::new(queues, flows)
}

/// Frames shorter than a source may send, so that the slow run is short; laptops' at any moment, some at an instant or
/// just before one.
fn random_sends(rng: &mut Rng, hall: &Hall) -> Sends {
    let mut list = Sends::default();
    for _ in 0..rng.between(5, 40) {
        list.frames.push(Send {
            instant: rng.between(0, 150),
            flow: rng.index(hall.flows.len()),
            bytes: rng.between(1, 6),
            line: 1,
        });
    }
    let ports: Vec<usize> = hall
        .links()
        .iter()
        .enumerate()
        .filter(|(_, queues)| hall.queues[queues[0]].best_effort_frame > 0)
        .map(|(index, _)| index)
        .collect();
    let count = match ports.is_empty() {
        true => 0,
        false => rng.between(1, 30),
    };
    for _ in 0..count {
        let instant = 1000 * rng.between(1, 150);
        list.laptops.push(Laptop {
            link: rng.pick(&ports),
            ready: match rng.between(0, 3) {
                0 => instant,
                1 => instant - 1,
                _ => instant - rng.between(0, 999),
            },
            bytes: rng.between(1, 6),
            line: 1,
        });
    }
    list.frames.sort_by_key(|send| send.instant);
    list.laptops.sort_by_key(|laptop| laptop.ready);
    list
}

/// What is left of a laptop's frame when a frame comes.
fn left(stay: &Stay) -> u128 {
    stay.frame.behind.map_or(0, |behind| behind.left)
}

/// The stays and the laptops' frames as the slow run has them, both in order.
fn told(record: &Record) -> (Vec<Stayed>, Vec<Started>) {
    let stayed = |stay: &Stay| {
        let frame = &stay.frame;
        let (flow, number, came) = (frame.flow, frame.number, frame.came);
        let (first, gone) = (stay.first, stay.gone);
        (stay.queue, flow, number, came, first, gone, left(stay))
    };
    let started = |frame: &BestEffort| (frame.laptop.link, frame.laptop.bytes, frame.first);
    let mut stays: Vec<Stayed> = record.stays.iter().map(stayed).collect();
    let mut laptops: Vec<Started> = record.started.iter().map(started).collect();
    stays.sort_unstable();
    laptops.sort_unstable();
    (stays, laptops)
}

/// The instant at which the last frame has left.
fn last(record: &Record) -> u64 {
    let stays = record.stays.iter().map(|stay| stay.gone);
    let laptops = record.started.iter().map(|frame| frame.gone);
    stays.chain(laptops).max().unwrap_or(0)
}

/// Every stay to the slot, and every laptop's frame.
#[test]
fn equals_the_run_slot_by_slot() {
    let (mut stays, mut laptops, mut behind, mut between_bits) = (0, 0, 0, 0);
    for index in 0..60 {
        let mut rng = Rng::new(202, index);
        let hall = slow_hall(&mut rng);
        let list = random_sends(&mut rng, &hall);
        let ours = recorded(&hall, &list);
        let slow = Slow::run(&hall, &list, last(&ours) + 1);
        let (found, started) = told(&ours);
        assert_eq!((&found, &started), (&slow.stays, &slow.started), "{index}");
        let hops = |send: &Send| hall.flows[send.flow].hops.len();
        assert_eq!(found.len(), list.frames.iter().map(hops).sum::<usize>());
        assert_eq!(started.len(), list.laptops.len(), "hall {index}");
        stays += found.len();
        laptops += started.len();
        behind += ours.stays.iter().filter(|stay| left(stay) > 0).count();
        let broken = ours.stays.iter().filter(|stay| stay.first % 1000 > 0);
        between_bits += broken.count();
    }
    assert!(stays > 1_500 && laptops > 400, "{stays} {laptops}");
    assert!(
        behind > 100 && between_bits > 100,
        "{behind} {between_bits}"
    );
}

/// One link of 100 Mbit/s with two levels, on which laptops send up to 1,542 bytes.
fn one_link() -> Hall {
    let flows = vec![
        flow(7, 1_542, 250, &[(1, 1)]),
        flow(8, 1_542, 250, &[(1, 2)]),
    ];
    Hall::new(link(1, 100, 2, 0, 1_542), flows)
}

/// When each frame is sent, in thousandths of a µs, by flow; 9 stands for a laptop.
fn order(text: &str) -> Vec<(u64, u128, u64)> {
    let hall = one_link();
    let record = recorded(&hall, &read(&hall, text));
    let stays = record.stays.iter();
    let mut sent: Vec<(u64, u128, u64)> = stays
        .map(|stay| {
            (
                hall.flows[stay.frame.flow].number,
                stay.first / 100,
                stay.gone,
            )
        })
        .collect();
    let laptops = record.started.iter();
    sent.extend(laptops.map(|frame| (9, frame.first / 100, frame.gone)));
    sent.sort_by_key(|&(_, first, _)| first);
    sent
}

/// A frame that comes at an instant at which the link is free goes first, and a laptop's that is ready waits for all that
/// wait; 250 bytes take 20 µs. A frame that comes while a laptop's is under way waits for its end.
#[test]
fn registered_frames_go_first() {
    // Ready at the very instant.
    assert_eq!(
        order("5 7 250\nlaptop 1 5 250\n"),
        [(7, 5_000, 25), (9, 25_000, 45)]
    );
    // The link is free just when the next one comes.
    assert_eq!(
        order("0 8 250\nlaptop 1 3 250\n20 8 250\n"),
        [(8, 0, 20), (8, 20_000, 40), (9, 40_000, 60)]
    );
    // A thousandth of a µs before.
    assert_eq!(
        order("5 8 250\n5 7 250\nlaptop 1 4.999 250\n"),
        [(9, 4_999, 25), (7, 24_999, 45), (8, 44_999, 65)]
    );
    // Several wait in the order in which they were ready, and never between registered ones.
    assert_eq!(
        order("laptop 1 2.5 125\nlaptop 1 1 125\n0 7 250\n10 8 250\n"),
        [
            (7, 0, 20),
            (8, 20_000, 40),
            (9, 40_000, 50),
            (9, 50_000, 60)
        ]
    );
    // It ends at the very instant at which one comes, and one that came before waits for its end alone.
    assert_eq!(
        order("laptop 1 0 250\n20 7 250\n3 8 250\n"),
        [(9, 0, 20), (7, 20_000, 40), (8, 40_000, 60)]
    );
}

/// A laptop's instant is one that SENDS names: a greedy source without an end goes on after it for twice the span.
#[test]
fn the_last_instant_may_be_a_laptops() {
    let mut hall = one_link();
    // A frame of 250 bytes each µs.
    hall.flows[0].rate = 2_000_000;
    let last = |text: &str| read(&hall, text).frames.last().unwrap().instant;
    let span = 2 * hall.span();
    assert_eq!(last("greedy 7 from 0\n"), span);
    assert_eq!(last("greedy 7 from 0\nlaptop 1 900 84\n"), 900 + span);
    assert_eq!(last("greedy 7 from 0\nlaptop 1 899.001 84\n"), 900 + span);
}

/// Frames and laptops' frames together are too many.
#[test]
fn laptops_count_among_the_frames() {
    let hall = one_link();
    let text = |laptops: u64| {
        let most = sends::MOST_FRAMES - 1;
        format!("0 7 250 x {most}\n") + &"laptop 1 3 84\n".repeat(laptops as usize)
    };
    let told = |text: &str| {
        let lines = sends::read(text, &hall.flows, &hall.queues).unwrap();
        sends::expand(&lines, &hall.flows, 0).map(|list| list.laptops.len())
    };
    assert_eq!(told(&text(1)), Ok(1));
    let mistake = told(&text(2)).unwrap_err().to_string();
    assert!(mistake.starts_with("3:1: more than "), "{mistake}");
}

/// A laptop's frame is in no queue: the queue holds its own frames alone, whatever is under way.
#[test]
fn in_no_queue() {
    let hall = one_link();
    let record = recorded(&hall, &read(&hall, "laptop 1 0.5 1542\n10 7 250\n"));
    // 1,542 bytes take 123.36 µs, 250 bytes 20.
    assert_eq!(record.held, [(0, 10, 250), (0, 144, 0)]);
    let stay = record.stays[0];
    let found = stay.frame.behind.unwrap();
    assert_eq!((found.left, found.whole), (11_386_000, 12_336_000));
    assert_eq!(stay.first, 12_386_000);
}
