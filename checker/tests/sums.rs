//! Document 01, "Sums to check by hand", and those of W-202 and W-208: at 100 Mbit/s where no other
//! speed is named, flows of rate 1,000, burst and frame 1,542. Each is worked out by the formulas or
//! put to all versions as a batch.

use checker::versions::versions;
use plain::formula::{backlog, burst_at_hop, delay, rate_passes, Aggregate, Link};
use plain::formula::{hop_growth, shortest_sending};

const FLOW: Aggregate = Aggregate {
    rate: 1_000,
    burst: 1_542,
    frame: 1_542,
};
const NONE: Aggregate = Aggregate {
    rate: 0,
    burst: 0,
    frame: 0,
};

/// A link that carries registered frames alone.
const LINK: Link = Link {
    speed: 100,
    best_effort_frame: 0,
};
/// One with the longest best-effort frame.
const SHARED: Link = Link {
    best_effort_frame: 1_542,
    ..LINK
};

/// Delay and backlog of the level with index `p`.
fn bounds(link: Link, levels: &[Aggregate], p: usize) -> (u128, u128) {
    (delay(link, levels, p), backlog(link, levels, p))
}

/// The answers of a batch, the same from all versions.
fn answers(table: &str, orders: &str) -> String {
    let mut one = vec![0; 40_000];
    let (code, lines) = plain::programs::batch(table.as_bytes(), orders.as_bytes(), &mut one);
    assert_eq!(code, 0);
    for (name, batch) in versions() {
        let mut other = vec![0; 40_000];
        let outcome = batch(table.as_bytes(), orders.as_bytes(), &mut other);
        assert_eq!(outcome, (0, lines as u32), "{name}");
        assert!(one == other, "{name}");
    }
    one.truncate(20 * lines as usize);
    String::from_utf8(one).unwrap()
}

/// The last line's answer without its line number.
fn last(table: &str, orders: &str) -> String {
    answers(table, orders).lines().last().unwrap()[6..].to_string()
}

fn table_line(link: u32, level: u32, threshold: u32, buffer: u32) -> String {
    format!(
        "{link:>4}{link:>4}{:>4}{:>6}{level:>2}{threshold:>7}{buffer:>9}\n",
        link + 1,
        100
    )
}

/// The same with a best-effort frame.
fn shared_line(level: u32, threshold: u32, buffer: u32, frame: u32) -> String {
    let line = table_line(1, level, threshold, buffer);
    format!("{}      0{frame:>5}\n", line.trim_end())
}

/// A registration over the first levels of so many links from link 1 on.
fn registration(number: u32, rate: u32, burst: u32, frame: u32, hops: u32) -> String {
    let path: String = (1..=hops)
        .map(|link| format!("{link:>4}{:>2}", 1))
        .collect();
    format!(
        " 1{number:>6}{rate:>9}{burst:>8}{frame:>5}{:>8}{hops:>3}{path}\n",
        10_000_000
    )
}

#[test]
fn one_flow() {
    assert_eq!(bounds(LINK, &[FLOW], 0), (247, 1_558));
    let line = registration(7, 1_000, 1_542, 1_542, 1);
    assert_eq!(last(&table_line(1, 1, 247, 1_558), &line), "  0   1   0 0");
    assert_eq!(last(&table_line(1, 1, 246, 1_558), &line), " 22   0   1 1");
    assert_eq!(last(&table_line(1, 1, 247, 1_557), &line), " 23   0   1 1");
}

#[test]
fn a_second_flow_below() {
    let levels = [FLOW, FLOW];
    assert_eq!(bounds(LINK, &levels, 1), (374, 1_574));
    assert_eq!(bounds(LINK, &levels, 0), (371, 1_573));
}

#[test]
fn one_flow_beside_a_laptop() {
    assert_eq!(bounds(SHARED, &[FLOW], 0), (371, 1_573));
    let line = registration(7, 1_000, 1_542, 1_542, 1);
    let answer = |threshold, buffer, frame| {
        let table = shared_line(1, threshold, buffer, frame);
        last(&table, &line)
    };
    assert_eq!(answer(371, 1_573, 1_542), "  0   1   0 0");
    assert_eq!(answer(370, 1_573, 1_542), " 22   0   1 1");
    assert_eq!(answer(371, 1_572, 1_542), " 23   0   1 1");
    assert_eq!(answer(247, 1_558, 0), "  0   1   0 0");
    assert_eq!(answer(247, 1_558, 84), " 22   0   1 1");
}

/// A sum of the field and the frame below would give 494 at level 1; the last level counts the field too.
#[test]
fn two_levels_beside_a_laptop() {
    let levels = [FLOW, FLOW];
    assert_eq!(bounds(SHARED, &levels, 0), (371, 1_573));
    assert_eq!(bounds(SHARED, &levels, 1), (499, 1_589));
    let first = registration(7, 1_000, 1_542, 1_542, 1);
    let second = registration(8, 1_000, 1_542, 1_542, 1).replace("   1 1\n", "   1 2\n");
    let answer = |one: (u32, u32), other: (u32, u32)| {
        let table = shared_line(1, one.0, one.1, 1_542) + &shared_line(2, other.0, other.1, 1_542);
        last(&table, &(first.clone() + &second))
    };
    assert_eq!(answer((371, 1_573), (499, 1_589)), "  0   2   0 0");
    assert_eq!(answer((371, 1_573), (498, 1_589)), " 22   0   1 2");
    assert_eq!(answer((371, 1_573), (499, 1_588)), " 23   0   1 2");
}

/// 672 bits: 67.2, 6.72, 0.672 and 0.0672 µs, rounded up. 6.93 and 6.52 at the simulator's odd speeds.
#[test]
fn shortest_sending_times() {
    let times = [1, 10, 97, 100, 103, 671, 672, 1_000, 10_000].map(shortest_sending);
    assert_eq!(times, [672, 68, 7, 7, 7, 2, 1, 1, 1]);
}

/// Whole thresholds would give 1,589 and 1,635; rounding at each hop gives 1,634.
#[test]
fn burst_along_a_path() {
    let part = hop_growth(371, 100);
    assert_eq!(part, 364);
    assert_eq!(burst_at_hop(1_542, 1_000, part), 1_588);
    assert_eq!(burst_at_hop(1_542, 1_000, 2 * part), 1_633);
    let each = burst_at_hop(burst_at_hop(1_542, 1_000, part), 1_000, part);
    assert_eq!(each, 1_634);
}

/// The burst after a threshold on a link of this speed.
fn burst_after(threshold: u128, speed: u128) -> u128 {
    burst_at_hop(1_542, 1_000, hop_growth(threshold, speed))
}

/// A shortest sending time of 6 µs would give 1,589 at 375, one of 8 would give 1,588 at 376. The speed is the earlier
/// link's. A threshold below the shortest sending time adds nothing.
#[test]
fn burst_after_one_threshold() {
    assert_eq!(burst_after(375, 100), 1_588);
    assert_eq!(burst_after(376, 100), 1_589);
    assert_eq!(burst_after(371, 10), 1_580);
    for (shortest, speed) in [(7, 100), (68, 10), (672, 1), (1, 10_000)] {
        let found = [1, shortest, shortest + 1].map(|threshold| burst_after(threshold, speed));
        assert_eq!(found, [1_542, 1_542, 1_543], "{speed} Mbit/s");
    }
}

/// A link of this speed and threshold, then one at 100 Mbit/s with this buffer.
fn behind(speed: u32, threshold: u32, buffer: u32) -> String {
    let first = format!("   1   1   2{speed:>6} 1{threshold:>7} 16777215\n");
    first + &table_line(2, 1, 100_000, buffer)
}

/// The backlog at the second link is the burst there and 16 (15.42). At 10 Mbit/s 2,468 µs are the bound: 2,400 of them
/// count, which is 300 bytes.
#[test]
fn backlog_after_one_threshold() {
    let line = registration(7, 1_000, 1_542, 1_542, 2);
    for (speed, threshold, burst) in [
        (100, 371, 1_588),
        (100, 375, 1_588),
        (100, 376, 1_589),
        (10, 2_468, 1_842),
        (1_000, 26, 1_546),
    ] {
        let answer = |buffer| last(&behind(speed, threshold, buffer), &line);
        assert_eq!(answer(burst + 16), "  0   1   0 0", "{threshold}");
        assert_eq!(answer(burst + 15), " 23   0   2 1", "{threshold}");
    }
}

#[test]
fn rate_rule() {
    let held = Aggregate {
        rate: 99_000,
        ..FLOW
    };
    assert!(rate_passes(100, &[held, Aggregate { rate: 999, ..NONE }]));
    assert!(!rate_passes(
        100,
        &[
            held,
            Aggregate {
                rate: 1_000,
                ..NONE
            }
        ]
    ));
    let table = table_line(1, 1, 100_000, 16_777_215);
    let first = registration(1, 99_000, 1_542, 1_542, 1);
    let passes = first.clone() + &registration(2, 999, 1_542, 1_542, 1);
    assert_eq!(last(&table, &passes), "  0   2   0 0");
    let refused = first + &registration(2, 1_000, 1_542, 1_542, 1);
    assert_eq!(last(&table, &refused), " 21   0   1 0");
}

#[test]
fn ranges() {
    let table: String = (1..=13)
        .map(|link| table_line(link, 1, 5_000, 16_777_215))
        .collect();
    let one = |number| registration(number, 1_000, 1_542, 1_542, 1);
    assert_eq!(last(&table, &one(65_535)), "  0   1   0 0");
    assert_eq!(last(&table, &one(65_536)), " 11   0   0 0");
    assert_eq!(
        last(&table, &registration(1, 1_000, 1_542, 1_542, 12)),
        "  0   1   0 0"
    );
    assert_eq!(
        last(&table, &registration(1, 1_000, 1_542, 1_542, 13)),
        " 11   0   0 0"
    );
    assert_eq!(
        last(&table, &registration(1, 1_000, 1_541, 1_542, 1)),
        " 17   0   0 0"
    );
}

#[test]
fn hop_pool() {
    let table: String = (1..=12)
        .map(|link| table_line(link, 1, 100_000, 16_777_215))
        .collect();
    let held: String = (1..=85)
        .map(|number| registration(number, 1, 84, 84, 12))
        .collect();
    let more = |hops| held.clone() + &registration(86, 1, 84, 84, hops);
    assert_eq!(last(&table, &more(4)), "  0  86   0 0");
    assert_eq!(last(&table, &more(5)), " 31   0   0 0");
}

#[test]
fn whole_batch() {
    let table = "   1   1   2   100 1    370     2000\n   1   1   2   100 2    374     2000\n";
    let orders = " 1     7     1000    1542 1542     370  1   1 1\n \
                  1     8     1000    1542 1542     374  1   1 2\n \
                  2     7\n \
                  1     8     1000    1542 1542     374  1   1 2\n";
    let printed =
        "     1  0   1   0 0\n     2 22   0   1 1\n     3  0   1   0 0\n     4  0   1   0 0\n";
    assert_eq!(answers(table, orders), printed);
    let admitted = plain::programs::admit(table.as_bytes(), orders.as_bytes());
    assert_eq!(admitted, printed.as_bytes());
}
