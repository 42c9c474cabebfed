//! W-206 by hand, put to all versions: the columns of a change, the order of its causes, the new share in place of the old,
//! the place kept, and nothing changed where it is refused.

mod common;

use checker::calls::Calls;
use checker::lists::REPLAYS;
use checker::{book, fast};
use common::printed;
use plain::orders::{write_change, Change};
use plain::programs::{replay, write_call};

/// A link at 100 Mbit/s with this threshold and buffer.
fn table_line(link: u64, level: u64, threshold: u64, buffer: u64) -> String {
    let to = link + 1;
    format!("{link:>4}{link:>4}{to:>4}   100{level:>2}{threshold:>7}{buffer:>9}\n")
}

/// Document 01's flow, rate 1,000, burst and frame 1,542, over level 1 of so many links.
fn registration(number: u64, hops: u64) -> String {
    let path: String = (1..=hops).map(|link| format!("{link:>4} 1")).collect();
    format!(" 1{number:>6}     1000    1542 1542 1000000{hops:>3}{path}\n")
}

fn change(number: u64, rate: u64, burst: u64) -> String {
    let line = write_change(&Change {
        number,
        rate,
        burst,
    });
    String::from_utf8(line).unwrap()
}

/// The last line's answer without its line number.
fn last(table: &str, orders: &str) -> String {
    printed(table, orders).lines().last().unwrap()[6..].to_string()
}

/// What becomes of flow 7, alone on the link, when it is changed so.
fn changed(table: &str, rate: u64, burst: u64) -> String {
    last(table, &(registration(7, 1) + &change(7, rate, burst)))
}

const LOOSE: (u64, u64) = (100_000, 16_777_215);

fn loose() -> String {
    table_line(1, 1, LOOSE.0, LOOSE.1)
}

#[test]
fn columns_and_ranges() {
    assert_eq!(change(7, 2_000, 3_084), " 3     7     2000    3084\n");
    let after = |line: &str| last(&loose(), &(registration(7, 1) + line));
    let code = |line: &str| after(line)[..3].to_string();
    assert_eq!(after(" 3     7     2000    3084\n"), "  0   1   0 0");
    // 24 and 26 columns, a registration's rest behind it, a leading zero, no number.
    for malformed in [
        " 3     7     2000   3084\n",
        " 3     7     2000    308\n",
        " 3     7     2000    3084 \n",
        " 3     7     2000    3084 1542   10000  1   1 1\n",
        " 3     7    02000    3084\n",
        " 3     7             3084\n",
        " 3     7\n",
        " 3\n",
        " 3     7     2000    3084",
    ] {
        assert_eq!(code(malformed), " 10", "{malformed:?}");
    }
    for (number, rate, burst) in [
        (0, 2_000, 3_084),
        (65_536, 2_000, 3_084),
        (7, 0, 3_084),
        (7, 10_000_001, 3_084),
        (7, 2_000, 83),
        (7, 2_000, 1_000_001),
    ] {
        assert_eq!(code(&change(number, rate, burst)), " 11");
    }
    for kind in [" 0", " 4", "99"] {
        assert_eq!(code(&format!("{kind} whatever\n")), " 11");
    }
}

/// Each line meets the cause named and the next one.
#[test]
fn the_order_of_causes() {
    let code = |line: &str| last(&loose(), &(registration(7, 1) + line))[..3].to_string();
    assert_eq!(code(" 3     0     2000   x1541\n"), " 10");
    assert_eq!(code(&change(8, 0, 1_541)), " 11");
    assert_eq!(code(&change(8, 100_000, 1_541)), " 13");
    assert_eq!(code(&change(7, 100_000, 1_541)), " 17");
    let full = table_line(1, 1, 247, 1_558);
    assert_eq!(changed(&full, 100_000, 3_000), " 21   0   1 0");
    assert_eq!(changed(&full, 1_000, 3_000), " 22   0   1 1");
    assert_eq!(changed(&full, 1_100, 1_542), " 23   0   1 1");
}

/// 8000 × (1,542 + burst) / 100,000 and burst + ceil(1,000 × 1,542 / 100,000).
#[test]
fn bounds_with_the_new_burst() {
    for (burst, delay, backlog) in [
        (3_084, 371, 3_100),
        (3_083, 370, 3_099),
        (1_542, 247, 1_558),
    ] {
        let answer =
            |threshold, buffer| changed(&table_line(1, 1, threshold, buffer), 1_000, burst);
        assert_eq!(answer(delay, backlog), "  0   1   0 0");
        // At 247 µs and 1,558 bytes the flow is held, at one less it isn't.
        let held = burst > 1_542;
        let refused = |code: &str| {
            if held {
                format!("{code}   0   1 1")
            } else {
                " 13   0   0 0".to_string()
            }
        };
        assert_eq!(answer(delay - 1, backlog), refused(" 22"));
        assert_eq!(answer(delay, backlog - 1), refused(" 23"));
    }
}

/// The old rate doesn't count beside the new one, nor the old burst.
#[test]
fn the_new_share_in_place_of_the_old() {
    let held = registration(8, 1) + &registration(7, 1) + &change(7, 98_000, 1_542);
    assert_eq!(last(&loose(), &held), "  0   2   0 0");
    let again = |rate| last(&loose(), &(held.clone() + &change(7, rate, 1_542)));
    assert_eq!(again(98_999), "  0   2   0 0");
    assert_eq!(again(99_000), " 21   0   1 0");
    // 8000 × (1,542 + 1,542) / 100,000: as it is, it fits just so.
    assert_eq!(
        changed(&table_line(1, 1, 247, 1_558), 1_000, 1_542),
        "  0   1   0 0"
    );
}

/// Bursts at the second link: 1,542 + ceil(2,000 × 364 / 8000) = 1,633 in place of 1,588, and 31 (30.84) for the backlog.
#[test]
fn a_rate_alone_moves_later_bursts() {
    let table = |buffer| table_line(1, 1, 371, 1_573) + &table_line(2, 1, 371, buffer);
    let orders = registration(7, 2) + &change(7, 2_000, 1_542);
    assert_eq!(last(&table(1_664), &orders), "  0   1   0 0");
    assert_eq!(last(&table(1_663), &orders), " 23   0   2 1");
    // At the first link 1,542 + 31 is just the buffer.
    let more = registration(7, 2) + &change(7, 2_100, 1_542);
    assert_eq!(last(&table(16_777_215), &more), " 23   0   1 1");
}

/// A level above is checked too, with the held frame below; its flow isn't the changed one.
#[test]
fn every_level_of_the_path() {
    let table = table_line(1, 1, 371, 1_573) + &table_line(1, 2, 1_000, 16_777_215);
    let below = registration(8, 1).replace("   1 1\n", "   1 2\n");
    let upper = registration(7, 1) + &below + &change(7, 2_000, 1_542);
    // 8000 × (1,542 + 1,542 + 1,542) / 100,000 stays 371; backlog 1,542 + ceil(61.68) = 1,604.
    assert_eq!(last(&table, &upper), " 23   0   1 1");
    let lower = registration(7, 1) + &below + &change(8, 90_000, 10_000);
    assert_eq!(last(&table, &lower), " 22   0   1 2");
    assert_eq!(
        last(&table, &(lower + &change(8, 50_000, 3_000))),
        "  0   2   0 0"
    );
}

/// What `replay` prints for calls, the same by all versions.
fn replayed(table: &str, calls: &[(u64, String)]) -> String {
    let list: Vec<u8> = calls
        .iter()
        .flat_map(|(kind, line)| write_call(*kind, line.as_bytes()))
        .collect();
    let known = replay(table.as_bytes(), &list);
    for (name, version) in REPLAYS {
        assert_eq!(version(table.as_bytes(), &list), known, "{name}");
    }
    String::from_utf8(known).unwrap()
}

/// Released and registered again, 8 would stand at place 1.
#[test]
fn place_path_frame_and_deadline_are_kept() {
    let calls = [
        (1, registration(7, 1)),
        (1, registration(8, 1)),
        (2, " 2     7\n".to_string()),
        (3, change(8, 2_500, 3_084)),
    ];
    let expected = "  0   1   0 0\n  0   2   0 0\n  0   1   0 0\n  0   2   0 0\n\
                    \x20  1 1        2500           3084 1542\n\
                    \x20  2     8     2500    3084 1542 1000000  1   1 1\n";
    assert_eq!(replayed(&loose(), &calls), expected);
}

#[test]
fn a_refused_change_changes_nothing() {
    let table = table_line(1, 1, 371, 1_573) + &table_line(2, 1, 371, 1_650);
    let held = (1, registration(7, 2));
    // The answers, and what stands below them.
    let made = |calls: &[(u64, String)]| {
        let text = replayed(&table, calls);
        let lines: Vec<String> = text.lines().map(str::to_string).collect();
        (lines[..calls.len()].to_vec(), lines[calls.len()..].to_vec())
    };
    let (answers, state) = made(std::slice::from_ref(&held));
    assert_eq!(answers, ["  0   1   0 0"]);
    // The last is refused at the second link, 1,664 of 1,650 bytes, the others before.
    for (rate, burst, answer) in [
        (100_000, 1_542, " 21   0   1 0"),
        (1_000, 3_100, " 22   0   1 1"),
        (1_000, 1_541, " 17   0   0 0"),
        (2_000, 1_542, " 23   0   2 1"),
    ] {
        let (answers, after) = made(&[held.clone(), (3, change(7, rate, burst))]);
        assert_eq!(answers[1], answer);
        assert_eq!(after, state);
    }
}

/// 256 flows of four hops fill places and hop entries: 30 and 31 are against no change.
#[test]
fn a_full_hall() {
    let table: String = (1..=4)
        .map(|link| table_line(link, 1, LOOSE.0, LOOSE.1))
        .collect();
    let flow = |number: u64| {
        registration(number, 4).replace("    1000    1542 1542", "       1      84   84")
    };
    let held: String = (1..=256).map(flow).collect();
    assert_eq!(last(&table, &(held.clone() + &flow(257))), " 30   0   0 0");
    assert_eq!(
        last(&table, &(held.clone() + &change(256, 2, 85))),
        "  0 256   0 0"
    );
    assert_eq!(last(&table, &(held + &change(257, 2, 85))), " 13   0   0 0");
}

fn code_of<R: Calls>(kind: u32, line: &str) -> u32 {
    let mut registry = Box::new(R::EMPTY);
    assert_eq!(registry.open(loose().as_bytes()), (0, 0));
    registry.call(1, registration(7, 1).as_bytes());
    registry.call(kind, line.as_bytes()).code
}

/// In each direct call a line of another kind is 11, its rest unread; a malformed kind is 10.
#[test]
fn direct_calls_take_their_own_kind() {
    let code = |kind: u32, line: &str| {
        let (mut plain, _) = plain::registry::Registry::open(loose().as_bytes());
        plain.register(registration(7, 1).as_bytes());
        let known = plain.call(u64::from(kind), line.as_bytes()).code;
        assert_eq!(u64::from(code_of::<book::Registry>(kind, line)), known);
        assert_eq!(u64::from(code_of::<fast::Registry>(kind, line)), known);
        known
    };
    let lines = [
        registration(8, 1),
        " 2     7\n".to_string(),
        change(7, 2_000, 3_084),
    ];
    for (kind, own) in (1..).zip(&lines) {
        for line in &lines {
            assert_eq!(code(kind, line), if line == own { 0 } else { 11 });
        }
        for other in [
            " 0\n",
            " 1 rest not read\n",
            " 2 x\n",
            " 3 x\n",
            " 4\n",
            "99\n",
        ] {
            let expected = if other.starts_with(&own[..2]) { 10 } else { 11 };
            assert_eq!(code(kind, other), expected, "{kind} {other:?}");
        }
        for malformed in [
            "",
            "\n",
            "3 \n",
            " x\n",
            "03     7     2000    3084\n",
            " 3",
        ] {
            assert_eq!(code(kind, malformed), 10, "{kind} {malformed:?}");
        }
        let twice = own.repeat(2);
        assert_eq!(code(kind, &twice), 10);
    }
}
