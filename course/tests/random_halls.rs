//! Random halls: what `bounds` prints against sums worked out apart, the proved answers against the plain ones,
//! `check` against what a batch refuses, made halls against the answers that they should reach.

mod common;

use common::hall_folder;
use common::paper::link_levels;
use course::bounds::report;
use course::check::{mistakes, Mistake};
use course::hall::make;
use course::session::{Session, Step};
use halls::input;
use halls::orders::one_byte;
use halls::rng::Rng;
use plain::causes;
use plain::columns::lines;
use plain::orders::{read_order, Flow, Hop, Order};
use plain::programs::{begin, MOST_ORDER_BYTES, MOST_ORDER_LINES};
use plain::registry::Registry;
use plain::table::{read_table, Queue};
use std::collections::BTreeSet;

/// What `bounds` should print of a queue: rate, burst, frame, then Res, blocking, Y, delay and backlog where it carries a
/// flow; the formulas are written out once more.
fn figures(registry: &Registry, queue: &Queue) -> Vec<u128> {
    let flows: Vec<&Flow> = registry.held();
    let levels = link_levels(&registry.queues, &flows, queue.link);
    let (p, speed) = (queue.level as usize - 1, u128::from(queue.speed));
    let own = levels[p];
    let mut numbers = vec![own.rate, own.burst, own.frame];
    if own.rate > 0 {
        let above: u128 = levels[..p].iter().map(|level| level.rate).sum();
        let bursts: u128 = levels[..p].iter().map(|level| level.burst).sum();
        let below = levels[p + 1..].iter().map(|level| level.frame);
        let laptop = u128::from(queue.best_effort_frame);
        let blocking = below.fold(laptop, u128::max);
        let ahead = bursts + blocking + own.frame;
        let residual = 1000 * speed - above;
        let delay = (8000 * (ahead + own.burst)).div_ceil(residual);
        let backlog = own.burst + (own.rate * ahead).div_ceil(residual);
        numbers.extend([residual, blocking, ahead, delay, backlog]);
    }
    numbers
}

/// The numbers of a printed row, those that stand for nothing left out.
fn numbers(row: &str) -> Vec<u128> {
    let words = row.split_whitespace().map(|word| word.replace(',', ""));
    words.filter_map(|word| word.parse().ok()).collect()
}

fn compare_bounds(session: &Session, name: &str) {
    let registry = &session.registry;
    let printed = report(registry, session.steps.len());
    let rows = printed
        .lines()
        .filter(|line| line.starts_with("  ") && !line.contains("level"));
    let mut rows = rows.map(numbers);
    compare_queues(registry, &mut rows, name);
    compare_flows(registry, &mut rows, name);
}

fn compare_queues(registry: &Registry, rows: &mut impl Iterator<Item = Vec<u128>>, name: &str) {
    for queue in &registry.queues {
        let row = rows.next().expect("a row for each queue");
        let known = figures(registry, queue);
        let mut expected = vec![u128::from(queue.level)];
        expected.extend(&known[..3]);
        let (threshold, buffer) = (u128::from(queue.threshold), u128::from(queue.buffer));
        match known[3..] {
            [residual, blocking, ahead, delay, backlog] => {
                assert!(delay <= threshold && backlog <= buffer, "{name}");
                expected.push(residual);
                expected.extend(Some(blocking).filter(|_| queue.best_effort_frame > 0));
                expected.extend([ahead, delay, threshold, backlog, buffer]);
            }
            _ => expected.extend([threshold, buffer]),
        }
        assert_eq!(
            row, expected,
            "{name}: link {} level {}",
            queue.link, queue.level
        );
    }
}

/// End to end: the cables, where a held flow has any, are counted into bounds and thresholds.
fn compare_flows(registry: &Registry, rows: &mut impl Iterator<Item = Vec<u128>>, name: &str) {
    let queue_of = |hop: &Hop| {
        let found = registry.queues.iter().find(|queue| queue.hop() == *hop);
        found.expect("a queue of the table")
    };
    let sum = |flow: &Flow, number: &dyn Fn(&Queue) -> u128| -> u128 {
        flow.hops.iter().map(|hop| number(queue_of(hop))).sum()
    };
    let cables = |flow: &Flow| sum(flow, &|queue| u128::from(queue.fixed_delay));
    let held = registry.held();
    let any = held.iter().any(|flow| cables(flow) > 0);
    // The heads have no number.
    assert_eq!(rows.next().unwrap_or_default(), []);
    for (index, slot) in registry.slots.iter().enumerate() {
        let Some(flow) = slot else { continue };
        let bounds = sum(flow, &|queue| figures(registry, queue)[6]);
        let thresholds = sum(flow, &|queue| u128::from(queue.threshold));
        let mut expected = vec![index as u128 + 1, flow.number.into()];
        expected.push(flow.hops.len() as u128);
        expected.extend(any.then(|| cables(flow)));
        expected.push(bounds + cables(flow));
        expected.push(thresholds + cables(flow));
        expected.push(flow.deadline.into());
        assert_eq!(rows.next(), Some(expected), "{name}: flow {}", flow.number);
    }
}

/// 2,000 halls; where the proved library is linked, a session fails on the first answer that differs.
#[test]
fn bounds_and_answers_agree() {
    let (mut done, mut refused) = (0, 0);
    for index in 0..2_000 {
        let given = input(&mut Rng::new(15, index), false);
        let folder = hall_folder(&given.table, &given.orders);
        let name = format!("hall {index}");
        match Session::run(&folder) {
            Ok(session) => {
                compare_bounds(&session, &name);
                done += 1;
            }
            Err(outcome) => {
                assert!(
                    begin(&given.table, &given.orders).is_err(),
                    "{name}: {}",
                    outcome.errors
                );
                assert!(
                    !outcome.errors.contains("the plain version differ"),
                    "{name}: {}",
                    outcome.errors
                );
                refused += 1;
            }
        }
    }
    assert!(done > 1_000 && refused > 100, "{done} {refused}");
}

/// Some more damage than the halls have: several bytes, CR LF, a byte order mark, files swapped or cut.
fn damage(rng: &mut Rng, table: &mut Vec<u8>, orders: &mut Vec<u8>) {
    for _ in 0..rng.between(0, 3) {
        one_byte(rng, orders);
    }
    if rng.once_in(3) {
        one_byte(rng, table);
    }
    let text: &mut Vec<u8> = if rng.once_in(3) {
        &mut *table
    } else {
        &mut *orders
    };
    match rng.between(0, 11) {
        0 => {
            *text = String::from_utf8_lossy(text)
                .replace('\n', "\r\n")
                .into_bytes()
        }
        1 => {
            text.splice(..0, *b"\xef\xbb\xbf");
        }
        2 => std::mem::swap(table, orders),
        3 => {
            text.pop();
        }
        _ => {}
    }
}

/// `check` finds a mistake exactly where a batch would refuse the table, the orders' size, or the line with 10 or 11.
#[test]
fn mistakes_are_what_a_batch_refuses() {
    let mut seen = BTreeSet::new();
    for index in 0..3_000 {
        let mut rng = Rng::new(16, index);
        let given = input(&mut rng, false);
        let (mut table, mut orders) = (given.table, given.orders);
        damage(&mut rng, &mut table, &mut orders);
        let (of_table, of_orders) = mistakes(&table, &orders);
        if of_table.iter().any(|one| one.words.contains("swapped")) {
            let refused = read_table(&table).is_err() || !faulty_lines(&orders).is_empty();
            assert!(refused, "{index}");
            seen.insert("swapped");
            continue;
        }
        seen.extend(same_table(&table, &of_table, index));
        seen.insert(same_orders(&orders, &of_orders, index));
    }
    assert_eq!(seen.len(), 5, "{seen:?}");
}

/// The lines, counted from 1, that a batch answers with 10 or 11.
fn faulty_lines(orders: &[u8]) -> BTreeSet<usize> {
    let all = lines(orders).into_iter().enumerate();
    let faulty = all.filter(|(_, line)| read_order(line).is_err());
    faulty.map(|(index, _)| index + 1).collect()
}

fn same_table(table: &[u8], found: &[Mistake], index: u64) -> Option<&'static str> {
    let refusal = read_table(table).err();
    assert_eq!(
        found.is_empty(),
        refusal.is_none(),
        "table {index}: {found:?}"
    );
    let first = found.iter().map(|one| one.line).min();
    assert_eq!(
        first,
        refusal.map(|refusal| refusal.line as usize),
        "table {index}"
    );
    refusal.map(|_| "table")
}

fn same_orders(orders: &[u8], found: &[Mistake], index: u64) -> &'static str {
    let all = lines(orders);
    let size = orders.len() > MOST_ORDER_BYTES || all.len() > MOST_ORDER_LINES;
    let faulty = faulty_lines(orders);
    assert_eq!(
        found.is_empty(),
        faulty.is_empty() && !size,
        "orders {index}"
    );
    let whole = found.iter().any(|one| one.line == 0);
    assert_eq!(whole, size, "orders {index}");
    if size {
        // Refused for its size, it isn't read.
        assert!(found.iter().all(|one| one.line == 0), "orders {index}");
        return "41";
    }
    if all.len() > 1 && all.iter().all(|line| line.bytes.ends_with(b"\r")) {
        // Said once, of the first line.
        return "CR LF";
    }
    let of_lines = found.iter().map(|one| one.line).filter(|&line| line > 0);
    assert_eq!(
        of_lines.collect::<BTreeSet<usize>>(),
        faulty,
        "orders {index}"
    );
    "orders"
}

/// A made hall reaches the usual refusals and admits and releases, and a trainee finds no typing mistake beside those meant.
#[test]
fn made_halls_reach_the_usual_answers() {
    let (mut with_fibre, mut by_cable) = (0, 0);
    for seed in 0..100 {
        let made = make(seed);
        let folder = hall_folder(&made.table, &made.orders);
        let session =
            Session::run(&folder).unwrap_or_else(|failed| panic!("{seed}: {}", failed.errors));
        let codes: BTreeSet<u64> = session.steps.iter().map(|step| step.answer.code).collect();
        let usual = [0, 10, 11, 12, 13, 14, 15, 16, 17, 20, 21, 22, 23];
        assert_eq!(codes, BTreeSet::from(usual), "{seed}");
        let second = &session.steps[made.first_part..];
        let registers = |step: &&Step| matches!(step.order, Ok(Order::Register(_)));
        let room = [causes::RATE, causes::DELAY, causes::BACKLOG];
        for wanted in [&room[..], &[causes::DONE]] {
            let mut registrations = second.iter().filter(registers);
            let met = registrations.any(|step| wanted.contains(&step.answer.code));
            assert!(met, "{seed}: {wanted:?}");
        }
        let changes = second
            .iter()
            .filter(|step| matches!(step.order, Ok(Order::Change(_))));
        let changes: Vec<u64> = changes.map(|step| step.answer.code).collect();
        assert!(matches!(changes[..], [22 | 23, 0]), "{seed}: {changes:?}");
        let queues = &session.registry.queues;
        with_fibre += usize::from(queues.iter().any(|queue| queue.fixed_delay > 0));
        by_cable += session
            .steps
            .iter()
            .filter(|step| by_the_cable(step))
            .count();
    }
    assert!(with_fibre > 50 && with_fibre < 85, "{with_fibre}");
    assert!(by_cable > 20, "{by_cable}");
}

/// Refused by 20, though the thresholds alone are within the deadline.
fn by_the_cable(step: &Step) -> bool {
    let (Ok(Order::Register(flow)), Some(work)) = (&step.order, &step.work) else {
        return false;
    };
    step.answer.code == causes::DEADLINE && work.thresholds() <= u128::from(flow.deadline)
}
