//! The lengths that a table line may have, the fixed delay and the best-effort frame.

use plain::faults::What;
use plain::registry::fixed_delay_at;
use plain::table::{examine, read_table, write_queue, write_queue_in, Queue, Refusal};
use plain::table::{LENGTHS, MOST_TABLE_BYTES};

const SHORT: &str = "   1   1   2   100 1    370     2000";

/// Code and line that a text is refused with, 0 and 0 where it is read.
fn refusal(text: &str) -> (u64, u64) {
    let refused = read_table(text.as_bytes()).err();
    refused.map_or((0, 0), |Refusal { code, line }| (code, line))
}

/// A second level's line, with these bytes after its buffer.
fn second(rest: &str) -> String {
    format!("   1   1   2   100 2    370     2000{rest}\n")
}

#[test]
fn lengths_of_a_line() {
    // Up to each length a 0 stands in the last column, so that the length alone can be wrong.
    for columns in 36..=60_usize {
        let widths = [columns.min(43) - 36, columns.clamp(43, 48) - 43];
        let fields = widths.map(|width| format!("{:>width$}", if width > 0 { "0" } else { "" }));
        let more = "0".repeat(columns.saturating_sub(48));
        let line = format!("{SHORT}{}{more}\n", fields.concat());
        assert_eq!(line.len(), columns + 1);
        let code = if LENGTHS.contains(&columns) { 0 } else { 1 };
        assert_eq!(refusal(&line).0, code, "{columns} columns");
    }
    assert_eq!(LENGTHS, [36, 43, 48]);
    for malformed in [
        "       ",
        "     07",
        "      7     ",
        "      7   07",
        "      7   84 ",
        "      7 1,00",
        "           84",
    ] {
        let line = format!("{SHORT}{malformed}\n");
        assert_eq!(refusal(&line), (1, 1), "{malformed:?}");
    }
}

#[test]
fn range_of_a_fixed_delay() {
    let line = |delay: u64| format!("{SHORT}{delay:>7}\n");
    assert_eq!(refusal(&line(10_000)), (0, 0));
    assert_eq!(refusal(&line(10_001)), (2, 1));
    assert_eq!(refusal(&line(9_999_999)), (2, 1));
}

#[test]
fn range_of_a_best_effort_frame() {
    let line = |frame: u64| format!("{SHORT}      7{frame:>5}\n");
    for frame in [0, 84, 85, 1_541, 1_542] {
        assert_eq!(refusal(&line(frame)), (0, 0), "{frame}");
    }
    for frame in [1, 83, 1_543, 99_999] {
        assert_eq!(refusal(&line(frame)), (2, 1), "{frame}");
    }
}

/// What must agree within a link is the value, not the length; the range comes before it, the turn too.
#[test]
fn a_link_has_one_fixed_delay() {
    let none = format!("{SHORT}\n");
    let zero = format!("{SHORT}      0\n");
    let five = format!("{SHORT}      5\n");
    assert_eq!(refusal(&(none.clone() + &second("      0"))), (0, 0));
    assert_eq!(refusal(&(zero + &second(""))), (0, 0));
    assert_eq!(refusal(&(five.clone() + &second("      5"))), (0, 0));
    assert_eq!(refusal(&(five.clone() + &second(""))), (4, 2));
    assert_eq!(refusal(&(none.clone() + &second("      1"))), (4, 2));
    assert_eq!(refusal(&(none.clone() + &second("  10001"))), (2, 2));
    assert_eq!(refusal(&(none + &five)), (3, 2));
    let next = "   2   2   3   100 1    370     2000      6\n";
    let queues = read_table((five + next).as_bytes()).unwrap();
    let delays: Vec<u64> = queues
        .iter()
        .map(|queue| fixed_delay_at(&queues, queue.hop()))
        .collect();
    assert_eq!(delays, [5, 6]);
}

/// A line without the field means 0; links may differ.
#[test]
fn a_link_has_one_best_effort_frame() {
    let first = |rest: &str| format!("{SHORT}{rest}\n");
    for (one, other, code) in [
        ("", "      0    0", 0),
        ("      0    0", "", 0),
        ("      0", "      0    0", 0),
        ("      5", "      5    0", 0),
        ("      0   84", "      0   84", 0),
        ("      0   84", "", 4),
        ("", "      0 1542", 4),
        ("      0   84", "      0", 4),
        ("      0   84", "      0   85", 4),
        ("      5   84", "      6   84", 4),
        ("      0   84", "      0   83", 2),
        ("      0   84", "      1 1543", 2),
    ] {
        let line = if code == 0 { 0 } else { 2 };
        assert_eq!(refusal(&(first(one) + &second(other))), (code, line));
    }
    let next = "   2   2   3   100 1    370     2000      0 1542\n";
    assert_eq!(refusal(&(first("      0   84") + &first(""))), (3, 2));
    let queues = read_table((first("") + next).as_bytes()).unwrap();
    let frames: Vec<u64> = queues.iter().map(|queue| queue.best_effort_frame).collect();
    assert_eq!(frames, [0, 1_542]);
}

#[test]
fn what_is_said_of_a_length() {
    let found = |columns: usize| {
        let line = plain::columns::Line {
            bytes: &[SHORT, "     70   84     "].concat().into_bytes()[..columns],
            ended: true,
        };
        let (_, faults) = examine(&line, None);
        faults.into_iter().next().map(|fault| fault.what)
    };
    assert_eq!(found(36), None);
    assert_eq!(found(35), Some(What::Short { columns: 35 }));
    assert_eq!(found(40), Some(What::Length { columns: 40 }));
    assert_eq!(found(43), None);
    assert_eq!(found(44), Some(What::Length { columns: 44 }));
    assert_eq!(found(47), Some(What::Length { columns: 47 }));
    assert_eq!(found(48), None);
    let long = What::Long {
        columns: 49,
        most: 48,
    };
    assert_eq!(found(49), Some(long));
}

/// A line that ends within its fixed delay: the length, and what is no digit there.
#[test]
fn what_is_said_of_a_cut_fixed_delay() {
    let bytes = [SHORT, " 1,0"].concat().into_bytes();
    let line = plain::columns::Line {
        bytes: &bytes,
        ended: true,
    };
    let (queue, faults) = examine(&line, None);
    assert_eq!(queue, None);
    let found: Vec<(usize, What)> = faults
        .into_iter()
        .map(|fault| (fault.column, fault.what))
        .collect();
    let length = What::Length { columns: 40 };
    assert_eq!(found, [(41, length), (39, What::Byte(b','))]);
}

/// 5 is above 512 of the longest lines; 513 of the shortest fit, and are one too many.
#[test]
fn size_of_a_text() {
    assert_eq!(MOST_TABLE_BYTES, 25_088);
    let line = |link: u64, level: u64| {
        write_queue(&Queue {
            link,
            from: 1,
            to: 2,
            speed: 100,
            level,
            threshold: 1,
            buffer: 1,
            ..Queue::default()
        })
    };
    let mut text: Vec<u8> = (1..=64)
        .flat_map(|link| (1..=8).flat_map(move |level| line(link, level)))
        .collect();
    assert_eq!(read_table(&text).map(|queues| queues.len()), Ok(512));
    text.extend(line(65, 1));
    let past = Refusal { code: 3, line: 513 };
    assert_eq!(read_table(&text), Err(past));
    let unread = Refusal { code: 5, line: 0 };
    assert_eq!(read_table(&[b' '; MOST_TABLE_BYTES + 1]), Err(unread));
    let malformed = Refusal { code: 1, line: 1 };
    assert_eq!(read_table(&[b' '; MOST_TABLE_BYTES]), Err(malformed));
}

/// A queue is written in the shortest length that holds its numbers, and read back from every one that does.
#[test]
fn written_and_read() {
    let queue = |fixed_delay, best_effort_frame| Queue {
        link: 1,
        from: 1,
        to: 2,
        speed: 100,
        level: 1,
        threshold: 370,
        buffer: 2_000,
        fixed_delay,
        best_effort_frame,
    };
    for (queue, rest) in [
        (queue(0, 0), ""),
        (queue(12, 0), "     12"),
        (queue(0, 84), "      0   84"),
        (queue(12, 1_542), "     12 1542"),
    ] {
        let shortest = format!("{SHORT}{rest}\n").into_bytes();
        assert_eq!(write_queue(&queue), shortest);
        for length in LENGTHS.into_iter().filter(|&n| n >= shortest.len() - 1) {
            let line = write_queue_in(&queue, length);
            assert_eq!(line.len(), length + 1);
            assert_eq!(read_table(&line), Ok(vec![queue.clone()]));
        }
    }
}
