//! W-201's rules by hand, put to all versions: the deadline, the figures, and 42.

mod common;

use checker::calls::Calls;
use checker::lists::REPLAYS;
use checker::{book, fast};
use common::printed;
use plain::programs::{replay, write_call};

/// Links in a row at 100 Mbit/s with a threshold of 371 and these fixed delays.
fn row(fixed_delays: &[u32]) -> String {
    let line = |(link, delay): (usize, &u32)| {
        let (from, to) = (link + 1, link + 2);
        format!("{from:>4}{from:>4}{to:>4}   100 1    371     5000{delay:>7}\n")
    };
    fixed_delays.iter().enumerate().map(line).collect()
}

/// A registration over so many links from link 1 on.
fn registration(links: usize, deadline: u32) -> String {
    let hops: String = (1..=links).map(|link| format!("{link:>4} 1")).collect();
    format!(" 1     7     1000    1542 1542{deadline:>8}{links:>3}{hops}\n")
}

/// 3 × 371 and 10,005 µs of cable are met exactly; one µs more of any cable, the last one's too, is 20.
#[test]
fn deadline() {
    let order = registration(3, 11_118);
    for (fixed_delays, code) in [
        ([0, 5, 10_000], 0),
        ([1, 5, 10_000], 20),
        ([0, 6, 10_000], 20),
        ([5, 10_000, 0], 0),
        ([5, 10_000, 1], 20),
    ] {
        let slot = u32::from(code == 0);
        let line = format!("     1{code:>3}{slot:>4}   0 0\n");
        assert_eq!(printed(&row(&fixed_delays), &order), line);
    }
}

/// Bursts don't grow on cables: W-208's 1,588 and 1,633 whatever these take.
#[test]
fn bursts() {
    let call = write_call(1, registration(3, 100_000).as_bytes());
    for delays in [[0, 0, 0], [10_000, 7, 10_000]] {
        let table = row(&delays);
        let known = replay(table.as_bytes(), &call);
        for (name, replay) in REPLAYS {
            assert_eq!(replay(table.as_bytes(), &call), known, "{name}");
        }
        let text = String::from_utf8(known).unwrap();
        let bursts: Vec<&str> = text
            .lines()
            .skip(1)
            .take(3)
            .map(|line| line[18..33].trim())
            .collect();
        assert_eq!(bursts, ["1542", "1588", "1633"]);
    }
}

/// A short line means 0, also beside a long one of its link; another length is 1, another value 4.
#[test]
fn lines() {
    let first = "   1   1   2   100 1    371     5000";
    let second = "   1   1   2   100 2    371     5000";
    let refusal = |one: &str, other: &str| printed(&format!("{first}{one}\n{second}{other}\n"), "");
    assert_eq!(refusal("", "      0"), "");
    assert_eq!(refusal("      0", ""), "");
    assert_eq!(refusal("  10000", "  10000"), "");
    assert_eq!(refusal("", "     0"), "  1     2\n");
    assert_eq!(refusal("", "      0 "), "  1     2\n");
    assert_eq!(refusal("  10001", ""), "  2     1\n");
    assert_eq!(refusal("      1", ""), "  4     2\n");
    assert_eq!(refusal("", "      1"), "  4     2\n");
}

/// Codes of a release on a registry that holds one flow with its least deadline, the last link's fixed delay set to this.
fn damaged<R: Calls>(set: fn(&mut R, u32), fixed_delay: u32) -> u32 {
    let mut registry = Box::new(R::EMPTY);
    assert_eq!(registry.open(row(&[0, 5, 9, 0]).as_bytes()), (0, 0));
    let order = registration(3, 3 * 371 + 14);
    assert_eq!(registry.call(1, order.as_bytes()).code, 0);
    set(&mut registry, fixed_delay);
    registry.call(2, b" 2     7\n").code
}

#[test]
fn a_damaged_fixed_delay() {
    let book_last =
        |registry: &mut book::Registry, delay| registry.table.links[2].fixed_delay = delay;
    let fast_last = |registry: &mut fast::Registry, delay| registry.fixed_delay[2] = delay;
    for (delay, code) in [(9, 0), (8, 0), (0, 0), (10, 42), (u32::MAX, 42)] {
        assert_eq!(damaged(book_last, delay), code, "book, {delay}");
        assert_eq!(damaged(fast_last, delay), code, "fast, {delay}");
    }
    // No flow crosses the fourth link: only its range counts.
    let book_free =
        |registry: &mut book::Registry, delay| registry.table.links[3].fixed_delay = delay;
    let fast_free = |registry: &mut fast::Registry, delay| registry.fixed_delay[3] = delay;
    for (delay, code) in [(10_000, 0), (10_001, 42)] {
        assert_eq!(damaged(book_free, delay), code, "book, {delay}");
        assert_eq!(damaged(fast_free, delay), code, "fast, {delay}");
    }
}
