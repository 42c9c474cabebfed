//! Best-effort frames in a table's lines: what `check` says of each typing mistake.

mod common;

use common::{places, said, HINT};
use course::numbers::commas;
use plain::table::{read_table, write_queue_in, Queue, LENGTHS};

/// A table line without its LF, of 43 columns.
fn start(level: u64) -> String {
    format!("   1   1   2   100{level:>2}   1000    16000    120")
}

/// A level of a link, with a fixed delay and a best-effort frame.
fn queue(level: u64, best_effort_frame: u64) -> Queue {
    let first = read_table(format!("{}\n", start(1)).as_bytes()).unwrap();
    Queue {
        level,
        best_effort_frame,
        ..first[0].clone()
    }
}

/// What `check` says of two lines with these bytes after their fixed delays.
fn with_frames(first: &str, second: &str) -> Vec<String> {
    let table = format!("{}{first}\n{}{second}\n", start(1), start(2));
    said(table.as_bytes(), b"")
}

/// What `check` says of the second line with these bytes after its fixed delay, where the first has 1,000.
fn of_second(more: &str, words: &[&str]) {
    assert_eq!(with_frames(" 1000", more), places(2, words), "{more}");
}

#[test]
fn best_effort_frames() {
    for right in ["", "    0", "   84", " 1542"] {
        assert!(with_frames(right, right).is_empty(), "{right}");
    }
    assert!(with_frames("", "    0").is_empty());
    let lacking = "44: best-effort frame: 0 differs from 1,000 in the line before, of the same link; a line without these columns means 0";
    of_second("", &[lacking]);
    of_second("    0", &[lacking]);
    let other =
        "44: best-effort frame: 1,001 differs from 1,000 in the line before, of the same link";
    of_second(" 1001", &[other]);
    of_second("1,000", &["45: best-effort frame: a comma"]);
    of_second("01000", &["44: best-effort frame: a leading zero"]);
    of_second(
        "1000 ",
        &["48: best-effort frame: a blank right of a digit"],
    );
    of_second("     ", &["44: best-effort frame: no number"]);
    for outside in [1, 83, 1_543] {
        let words = format!(
            "44: best-effort frame: {} is out of range, 0 or 84 to 1,542",
            commas(outside)
        );
        let field = format!("{outside:>5}");
        let told = [1, 2].map(|line| format!("table.txt:{line}:{words}"));
        assert_eq!(with_frames(&field, &field), told);
        // In one line alone it is one mistake.
        assert_eq!(with_frames(&field, " 1000"), told[..1]);
        assert_eq!(with_frames(" 1000", &field), told[1..]);
    }
}

/// Too few or too many blanks before it, and what is too long.
#[test]
fn misplaced_best_effort_frames() {
    for (more, words) in [
        ("1000", "1 column too few"),
        ("  1000", "1 column too many"),
        ("    1000", "3 columns too many"),
    ] {
        let place = format!("44: best-effort frame: {words} before its number");
        of_second(more, &[&place]);
    }
    of_second(
        " 1000 ",
        &["49: 1 column too many: the line has 49, 48 are right"],
    );
    of_second(
        "  x",
        &[
            "46: best-effort frame: a letter, `x`",
            "47: the line has 46 columns, 36, 43 or 48 are right",
        ],
    );
}

/// A best-effort frame without a fixed delay before it: the delay is what lacks, and a line with the frame in its place
/// would be right and mean something else.
#[test]
fn a_frame_without_a_fixed_delay() {
    let said_of = |more: &str| {
        let table = format!("{}{more}\n", &start(1)[..36]);
        said(table.as_bytes(), b"")
    };
    let blank = format!("{:>12}", 1_542);
    assert_eq!(said_of(&blank), places(1, &["37: fixed delay: no number"]));
    for (more, columns) in [(" 1542", "2 columns"), ("1542", "3 columns")] {
        let words = format!("37: fixed delay: {columns} too few before its number{HINT}");
        assert_eq!(said_of(more), places(1, &[&words]));
    }
    // In a link's second line too it is one mistake.
    let second = format!("{} 1542\n{} 1542\n", start(1), &start(2)[..36]);
    let words = format!("37: fixed delay: 2 columns too few before its number{HINT}");
    assert_eq!(said(second.as_bytes(), b""), places(2, &[&words]));
    // With the frame in its place nothing else can be meant.
    let words = "37: fixed delay: 1 column too few before its number";
    assert_eq!(said_of("   120 1542"), places(1, &[words]));
}

/// A line that ends too soon lacks one field or two: one mistake, whichever line it is.
#[test]
fn a_line_that_lacks_its_last_fields_is_one_mistake() {
    let full = queue(1, 1_542);
    for (length, column) in [(36, 37), (43, 44)] {
        for (lacking, told) in [(1, 2), (2, 2), (3, 3)] {
            let line = |level: u64| {
                let own = Queue {
                    level,
                    ..full.clone()
                };
                let columns = if level == lacking { length } else { 48 };
                write_queue_in(&own, columns)
            };
            let table: Vec<u8> = (1..=3).flat_map(line).collect();
            let said = said(&table, b"");
            assert_eq!(said.len(), 1, "{said:?}");
            let place = format!("table.txt:{told}:{column}: ");
            assert!(said[0].starts_with(&place), "{said:?}");
        }
    }
}

/// Two lines in one, of all lengths.
#[test]
fn a_missing_line_end_within_a_table() {
    for first in LENGTHS {
        for second in LENGTHS {
            let mut table = write_queue_in(&queue(1, 84), first);
            table.pop();
            table.extend(write_queue_in(&queue(2, 84), second));
            let words = "another line begins here: the LF before it is missing";
            let place = format!("table.txt:1:{}: {words}", first + 1);
            assert_eq!(said(&table, b""), [place]);
        }
    }
}
