//! W-208's rules by hand, put to all versions: the figures along a path, the deadline, and 42; and what the count of S from
//! before it admits, beside the new one.

mod common;

use checker::calls::Calls;
use checker::lists::REPLAYS;
use checker::simulate::Hall;
use checker::{book, fast};
use common::printed;
use halls::input;
use halls::rng::Rng;
use halls::tables::{Bounds, Count};
use plain::columns::lines;
use plain::consistency::consistent;
use plain::formula::Aggregate;
use plain::orders::{read_order, Order};
use plain::programs::{replay, write_call};
use plain::registry::{Answer, Registry};
use plain::slips::{Growth, Slips};

/// Speeds and thresholds of links in a row. Of the thresholds 2,400, 299, 364, 99 and 364 µs count.
const ROW: [(u32, u32); 5] = [
    (10, 2_468),
    (1_000, 300),
    (97, 371),
    (10_000, 100),
    (100, 371),
];
/// Document 01's flow along them: 1,542 and, rounded up, 300, 337.375, 382.875 and 395.25.
const BURSTS: [u64; 5] = [1_542, 1_842, 1_880, 1_925, 1_938];

fn table() -> String {
    let line = |(link, (speed, threshold)): (usize, (u32, u32))| {
        let (from, to) = (link + 1, link + 2);
        format!("{from:>4}{from:>4}{to:>4}{speed:>6} 1{threshold:>7}     5000\n")
    };
    ROW.into_iter().enumerate().map(line).collect()
}

fn registration(deadline: u32) -> String {
    let hops: String = (1..=5).map(|link| format!("{link:>4} 1")).collect();
    format!(" 1     7     1000    1542 1542{deadline:>8}  5{hops}\n")
}

/// The burst sums that a list of calls leaves, the same by all versions.
fn left_by(calls: &[u8]) -> Vec<u64> {
    let table = table();
    let known = replay(table.as_bytes(), calls);
    for (name, replay) in REPLAYS {
        assert_eq!(replay(table.as_bytes(), calls), known, "{name}");
    }
    let text = String::from_utf8(known).unwrap();
    let figures = text.lines().filter(|line| line.len() == 38);
    let sums = figures.map(|line| line[18..33].trim().parse().unwrap());
    sums.collect()
}

/// Counted in, and taken out again.
#[test]
fn figures_along_a_path() {
    let put_in = write_call(1, registration(100_000).as_bytes());
    assert_eq!(left_by(&put_in), BURSTS);
    let taken_out = [put_in, write_call(2, b" 2     7\n")].concat();
    assert_eq!(left_by(&taken_out), [0; 5]);
}

/// Whole thresholds are held against the deadline.
#[test]
fn deadline() {
    let sum: u32 = ROW.iter().map(|(_, threshold)| threshold).sum();
    let answer = |deadline| printed(&table(), &registration(deadline));
    assert_eq!(answer(sum), "     1  0   1   0 0\n");
    assert_eq!(answer(sum - 1), "     1 20   0   0 0\n");
}

/// A release on a registry that holds the flow, with this burst sum at the second link.
fn code_by<R: Calls>(set: fn(&mut R, u64), burst: u64) -> u32 {
    let mut registry = Box::new(R::EMPTY);
    assert_eq!(registry.open(table().as_bytes()), (0, 0));
    assert_eq!(registry.call(1, registration(100_000).as_bytes()).code, 0);
    set(&mut registry, burst);
    registry.call(2, b" 2     7\n").code
}

/// A registry kept from before: 2,468 µs counted whole are 309 bytes.
#[test]
fn figures_by_whole_thresholds_are_42() {
    let (mut plain, _) = Registry::open(table().as_bytes());
    plain.register(registration(100_000).as_bytes());
    for (burst, code) in [(1_842, 0), (1_851, 42), (1_841, 42), (1_843, 42)] {
        let book = |registry: &mut book::Registry, burst| registry.sums[8].burst = burst;
        let fast = |registry: &mut fast::Registry, burst| registry.burst[1][0] = burst as u32;
        assert_eq!(code_by(book, burst), code, "book, {burst}");
        assert_eq!(code_by(fast, burst), code, "fast, {burst}");
        let figures = plain.queues.iter().map(|queue| plain.aggregate(queue));
        let mut figures: Vec<Aggregate> = figures.collect();
        figures[1].burst = u128::from(burst);
        let in_order = consistent(&plain.queues, &plain.slots, &figures);
        assert_eq!(in_order, code == 0, "plain, {burst}");
    }
}

/// The count from before W-208.
const WHOLE: Slips = Slips {
    growth: Growth::WholeThresholds,
    ..Slips::NONE
};

/// Whether a registration is admitted beside the flows of a registry, by whole thresholds and by the rules.
fn admitted(registry: &Registry, order: &Order) -> [bool; 2] {
    [WHOLE, Slips::NONE].map(|slips| {
        let (answer, _) = registry.by(slips).answer_to(order);
        answer.code == 0
    })
}

/// Random halls, tight ones among them. Beside the same flows, whichever count admitted them, whole thresholds never admit
/// what the rules refuse; the reverse happens.
#[test]
fn whole_thresholds_admit_less() {
    let mut met = [[0; 2]; 2];
    for index in 0..600 {
        let given = input(&mut Rng::new(8, index), false);
        let (rules, _) = Registry::open(&given.table);
        for mut registry in [rules.by(WHOLE), rules] {
            for line in lines(&given.orders).iter().take(60) {
                let order = read_order(line);
                if let Ok(order @ Order::Register(_)) = &order {
                    let [before, now] = admitted(&registry, order);
                    met[usize::from(before)][usize::from(now)] += 1;
                }
                registry.step(order);
            }
        }
    }
    let [[neither, only_now], [only_before, both]] = met;
    assert_eq!(only_before, 0);
    assert!(neither > 100 && both > 1_000 && only_now > 20, "{met:?}");
}

/// The orders that were done by whole thresholds, in their turn, are done by the rules with the same answers; a handover
/// text is such a list.
#[test]
fn nothing_admitted_is_lost() {
    let (mut done, mut grown) = (0, 0);
    for index in 0..600 {
        let given = input(&mut Rng::new(9, index), false);
        let (mut rules, _) = Registry::open(&given.table);
        let mut before = rules.by(WHOLE);
        for line in lines(&given.orders).iter().take(300) {
            let answer: Answer = before.step(read_order(line));
            if answer.code == 0 {
                assert_eq!(rules.step(read_order(line)), answer, "input {index}");
                done += 1;
            }
        }
        assert!(rules.slots == before.slots);
        let queues = rules.queues.iter();
        let smaller = queues.filter(|queue| {
            let levels = before.figures(queue.link, None);
            let (_, old) = &levels[queue.level as usize - 1];
            let new = rules.aggregate(queue);
            assert!(new.burst <= old.burst && (new.rate, new.frame) == (old.rate, old.frame));
            new.burst < old.burst
        });
        grown += smaller.count();
    }
    assert!(done > 5_000 && grown > 100, "{done} {grown}");
}

/// Halls whose limits whole thresholds just meet: every flow is still admitted, in the same slot.
#[test]
fn a_hall_tight_by_whole_thresholds_is_admitted() {
    let count = Count {
        bursts: WHOLE,
        ..Count::RIGHT
    };
    let bounds = Bounds {
        delays: count,
        backlogs: count,
    };
    let mut loose = 0;
    for index in 0..300 {
        let hall = Hall::by(&mut Rng::new(10, index), bounds);
        let mut rules = Registry::over(hall.queues.clone());
        let mut before = rules.by(WHOLE);
        for (slot, flow) in hall.flows.iter().enumerate() {
            let order = Order::Register(flow.clone());
            for registry in [&mut before, &mut rules] {
                assert_eq!(registry.step(Ok(order.clone())), Answer::done(slot));
            }
        }
        let queues = (0..hall.queues.len()).filter(|&queue| hall.carries(queue));
        let below = |queue: usize| {
            let bound = hall.delay_by(queue, Count::RIGHT);
            bound < hall.queues[queue].threshold
        };
        loose += queues.filter(|&queue| below(queue)).count();
    }
    assert!(loose > 100, "{loose}");
}
