//! Lines, fields, batches at their limits, direct calls and the list that `replay` reads.

use checker::calls::Calls;
use checker::versions::versions;
use checker::{book, fast};
use plain::columns::{field, lines};
use plain::programs::replay;

const TABLE: &[u8] =
    b"   1   1   2   100 1  10000   100000\n   1   1   2   100 2  10000   100000\n";
const LINE: &[u8] = b" 1     7     1000    1542 1542   10000  1   1 1\n";

/// A direct call's code on a version's registry.
fn version_code<R: Calls>(kind: u32, bytes: &[u8]) -> u64 {
    let mut registry = Box::new(R::EMPTY);
    assert_eq!(registry.open(TABLE), (0, 0));
    u64::from(registry.call(kind, bytes).code)
}

/// A direct call's code, the same from all versions.
fn code(kind: u32, bytes: &[u8]) -> u64 {
    let (mut plain, _) = plain::registry::Registry::open(TABLE);
    let known = plain.call(u64::from(kind), bytes);
    assert_eq!(known.code, version_code::<book::Registry>(kind, bytes));
    assert_eq!(known.code, version_code::<fast::Registry>(kind, bytes));
    known.code
}

#[test]
fn fields() {
    assert_eq!(field(b"   0", 1, 4), Some(0));
    assert_eq!(field(b"  10", 1, 4), Some(10));
    assert_eq!(field(b"9999", 1, 4), Some(9_999));
    for wrong in [
        &b"    "[..],
        b"  00",
        b"  01",
        b"1   ",
        b" 1 1",
        b"  -1",
        b"  +1",
        b" 1",
        b"\t  1",
    ] {
        assert_eq!(field(wrong, 1, 4), None);
    }
}

#[test]
fn text_lines() {
    assert_eq!(lines(b"").len(), 0);
    assert_eq!(lines(b"\n\n").len(), 2);
    let found = lines(b"a\nb");
    assert_eq!(
        (found.len(), found[0].ended, found[1].ended),
        (2, true, false)
    );
}

#[test]
fn one_line_to_a_call() {
    assert_eq!(code(1, LINE), 0);
    assert_eq!(code(1, b""), 10);
    assert_eq!(code(1, &LINE[..LINE.len() - 1]), 10);
    assert_eq!(code(1, &[LINE, LINE].concat()), 10);
    assert_eq!(code(1, &[LINE, b"\n"].concat()), 10);
    assert_eq!(code(1, &[LINE, b" "].concat()), 10);
    assert_eq!(code(1, b"\n"), 10);
    assert_eq!(code(2, b" 2     7\n"), 13);
}

#[test]
fn the_other_calls_kind() {
    assert_eq!(code(2, LINE), 11);
    assert_eq!(code(1, b" 2     7\n"), 11);
    assert_eq!(code(1, b" 2 rest not read\n"), 11);
    assert_eq!(code(2, b" 1\n"), 11);
    assert_eq!(code(1, b" 3\n"), 11);
    assert_eq!(code(1, b" 2     7\n\n"), 10);
}

#[test]
fn what_is_not_read() {
    assert_eq!(
        code(1, b" 1     7     1000    1542 1542   10000 13 not read\n"),
        11
    );
    assert_eq!(code(1, b" 1     7     1000    1542 1542   10000  0\n"), 11);
    assert_eq!(code(1, b" 1     x     1000    1542 1542   10000 13\n"), 10);
    assert_eq!(
        code(1, b" 1     7     1000    1542 1542   10000  2   1 1\n"),
        10
    );
    assert_eq!(
        code(1, b" 1     0     1000    1542 1542   10000  1   1 x\n"),
        10
    );
    assert_eq!(
        code(1, b" 1     7     1000    1542 1542   10000  19999 1\n"),
        14
    );
}

#[test]
fn batch_limits() {
    let all = |orders: &[u8], area: usize| {
        let mut one = vec![7; area];
        let (code, line) = plain::programs::batch(TABLE, orders, &mut one);
        for (name, batch) in versions() {
            let mut other = vec![7; area];
            let outcome = batch(TABLE, orders, &mut other);
            assert_eq!(outcome, (code as u32, line as u32), "{name}");
            assert_eq!(one, other, "{name}");
        }
        let untouched = one.iter().filter(|&&byte| byte == 7).count();
        (code, line, untouched)
    };
    assert_eq!(all(b"", 0), (0, 0, 0));
    assert_eq!(all(b"\n", 19), (40, 0, 19));
    assert_eq!(all(b"\n", 20), (0, 1, 0));
    assert_eq!(all(b"\nx", 45), (0, 2, 5));
    assert_eq!(all(&[b'\n'; 2_000], 40_000), (0, 2_000, 0));
    assert_eq!(all(&[b'\n'; 2_001], 50_000), (41, 0, 50_000));
    assert_eq!(all(&[b' '; 60_000], 20), (0, 1, 0));
    assert_eq!(all(&[b' '; 60_001], 0), (41, 0, 0));
}

#[test]
fn replay_prints_answers_queues_and_slots() {
    let calls = [b" 1    48\n", LINE, b" 2     0\n 1    48\n", &LINE[..20]].concat();
    let printed = replay(TABLE, &calls);
    let expected = "  0   1   0 0\n 10   0   0 0\nend        66\n\
                    \x20  1 1        1000           1542 1542\n\
                    \x20  1 2           0              0    0\n\
                    \x20  1     7     1000    1542 1542   10000  1   1 1\n";
    assert_eq!(String::from_utf8(printed).unwrap(), expected);
}

#[test]
fn replay_goes_on_without_queues() {
    let calls = [b" 1    48\n", LINE].concat();
    let printed = replay(b"x", &calls);
    assert_eq!(printed, b"  1     1\n 14   0   1 1\n");
}

#[test]
fn replay_reads_200_000_bytes() {
    let call = b" 2     1\n\n".repeat(20_000);
    let printed = replay(b"", &call);
    assert_eq!(printed, b" 10   0   0 0\n".repeat(20_000));
    let longer = [&call[..], b"x"].concat();
    assert_eq!(replay(b"", &longer), printed);
    let cut = replay(b"", &call[..199_999]);
    assert!(cut.ends_with(b"end    199990\n"));
}
