//! Fixed delays in a table's lines, in the deadline's sum and in the bounds.

mod common;

use common::{course, places, said, Temporary, HINT};
use std::fs;

const TABLE: &str = "   1   1   2   100 1    250     4000\n   1   1   2   100 2   1000    16000\n";

/// What `check` says of the two lines with these bytes after their buffers.
fn with_delays(first: &str, second: &str) -> Vec<String> {
    let ends = [("4000", first), ("16000", second)];
    let changed = ends.iter().fold(TABLE.to_string(), |text, (buffer, more)| {
        text.replacen(&format!("{buffer}\n"), &format!("{buffer}{more}\n"), 1)
    });
    said(changed.as_bytes(), b"")
}

/// What `check` says of the second line with these bytes after its buffer, where the first has a fixed delay of 250 µs.
fn of_second(more: &str, words: &[&str]) {
    assert_eq!(with_delays("    250", more), places(2, words), "{more}");
}

/// A fixed delay is right, missing in one line of a link, out of range, or no number.
#[test]
fn fixed_delays() {
    for right in ["", "      0", "    250", "  10000"] {
        assert!(with_delays(right, right).is_empty(), "{right}");
    }
    assert!(with_delays("", "      0").is_empty());
    let lacking = "37: fixed delay: 0 differs from 250 in the line before, of the same link; a line without these columns means 0";
    of_second("", &[lacking]);
    let other = "37: fixed delay: 240 differs from 250 in the line before, of the same link";
    of_second("    240", &[other]);
    of_second("    2,0", &["42: fixed delay: a comma"]);
    of_second("   0250", &["40: fixed delay: a leading zero"]);
    of_second("250    ", &["40: fixed delay: a blank right of a digit"]);
    of_second("       ", &["37: fixed delay: no number"]);
    assert_eq!(
        with_delays("  10001", "  10001"),
        [1, 2].map(|line| format!(
            "table.txt:{line}:37: fixed delay: 10,001 is out of range, 0 to 10,000"
        ))
    );
}

/// With nothing before it, 250 could be the buffer's last digits: then it would differ from the line before.
#[test]
fn misplaced_fixed_delays() {
    for (more, words) in [
        ("   250", "1 column too few"),
        (" 250", "3 columns too few"),
        ("250", "4 columns too few"),
        ("      250", "2 columns too many"),
    ] {
        let hint = if words.ends_with("few") { HINT } else { "" };
        let place = format!("37: fixed delay: {words} before its number{hint}");
        of_second(more, &[&place]);
    }
}

/// In a line that ends within its fixed delay what is no digit is named too.
#[test]
fn no_digits_in_a_line_that_ends_too_soon() {
    for (more, place, columns) in [
        (" 1,000", "39: fixed delay: a comma", 42),
        ("\t250", "37: fixed delay: a tab", 40),
        ("   x", "40: fixed delay: a letter, `x`", 40),
    ] {
        let end = columns + 1;
        let length = format!("{end}: the line has {columns} columns, 36, 43 or 48 are right");
        of_second(more, &[place, &length]);
    }
}

/// Two lines in one, of all lengths.
#[test]
fn a_missing_line_end_within_a_table() {
    for (first, column) in [("", 37), ("    250", 44)] {
        for second in ["", "    250"] {
            let lines = TABLE.replacen("4000\n", &format!("4000{first}"), 1);
            let table = lines.replacen("16000\n", &format!("16000{second}\n"), 1);
            let words = "another line begins here: the LF before it is missing";
            let place = format!("table.txt:1:{column}: {words}");
            assert_eq!(said(table.as_bytes(), b""), [place]);
        }
    }
}

/// The columns forgotten in one line of three are one mistake, whichever line it is.
#[test]
fn a_line_that_lacks_its_fixed_delay_is_one_mistake() {
    let line =
        |level: usize, more: &str| format!("   1   1   2   100{level:>2}    250     4000{more}\n");
    for (lacking, told) in [(1, 2), (2, 2), (3, 3)] {
        let more = |level| if level == lacking { "" } else { "    120" };
        let table: String = (1..=3).map(|level| line(level, more(level))).collect();
        let said = said(table.as_bytes(), b"");
        assert_eq!(said.len(), 1, "{said:?}");
        assert!(said[0].starts_with(&format!("table.txt:{told}:37: fixed delay: ")));
    }
}

/// Lines of other lengths: what stands behind the buffer or the fixed delay.
#[test]
fn lengths_of_table_lines() {
    let of_first = |more: &str, words: &str| {
        let place = format!("table.txt:1:{words}");
        assert_eq!(with_delays(more, ""), [place], "{more}");
    };
    of_first(" ", "38: the line has 37 columns, 36, 43 or 48 are right");
    of_first(
        "      0 ",
        "45: the line has 44 columns, 36, 43 or 48 are right",
    );
    let changed = |from: &str, to: &str, words: &str| {
        let table = TABLE.replacen(from, to, 1);
        assert_eq!(said(table.as_bytes(), b""), [format!("table.txt:{words}")]);
    };
    changed(
        "     4000",
        "      4000",
        "1:28: buffer: 1 column too many before its number",
    );
    changed(
        "     4000",
        "    4000",
        "1:28: buffer: 1 column too few before its number",
    );
    changed(
        "   1000",
        "    1000",
        "2:21: threshold: 1 column too many before its number",
    );
}

/// Two links, the second with a cable of 120 µs, and a flow over both.
fn fibre(deadline: u64) -> Temporary {
    let table = b"   1   1   2   100 1    250     4000
   2   2   3   100 1    100     4000    120
   2   2   3   100 2    500     4000    120
";
    let orders = format!(" 1     7      800     200  200{deadline:>8}  2   1 1   2 1\n");
    Temporary::with(table, orders.as_bytes())
}

/// The deadline holds the cable of the last hop too, to the µs.
#[test]
fn a_cable_counts_against_the_deadline() {
    let met = course(&["explain", &fibre(470).word()]).printed;
    for line in [
        "line 1: 0 place 1 (done)",
        "    thresholds 250 + 100 = 350",
        "    fixed delays 0 + 120 = 120",
        "    together 350 + 120 = 470 of 470 µs",
        // The burst grows with no cable.
        "      link 2 level 1: 200 + ceil(800 × 243 / 8000) = 225",
        "    link 1: from node 1, to node 2, speed 100 Mbit/s",
        "    link 2: from node 2, to node 3, speed 100 Mbit/s, fixed delay 120 µs",
    ] {
        assert!(met.lines().any(|known| known == line), "{line}: {met}");
    }
    let missed = course(&["explain", &fibre(469).word()]).printed;
    for line in [
        "line 1: 20 (thresholds and fixed delays above the deadline)",
        "    The thresholds along the path sum to 350 µs and the fixed delays to 120 µs, together 470 µs, above the deadline of 469 µs.",
        "    together 350 + 120 = 470 of 469 µs: above",
    ] {
        assert!(missed.lines().any(|known| known == line), "{line}: {missed}");
    }
}

/// The bounds, 32 and 34 µs, and the thresholds with the cable.
#[test]
fn bounds_have_the_cables() {
    let printed = course(&["bounds", &fibre(1_000).word()]).printed;
    let title = "\nlink 2: from node 2, to node 3, speed 100 Mbit/s, fixed delay 120 µs; rates";
    assert!(printed.contains(title), "{printed}");
    let flows = "
flows, end to end in µs
  place  flow  hops  cables  bounds + cables  thresholds + cables  deadline     %
      1     7     2     120              186                  470     1,000  18.6
";
    assert!(printed.ends_with(flows), "{printed}");
}

/// A made hall's sheet says what its fibre run takes; two of these seeds have one.
#[test]
fn a_made_halls_sheet_has_its_fixed_delay() {
    let folder = Temporary::new();
    let mut with_fibre = 0;
    for seed in ["1", "2", "3"] {
        let out = folder.0.join(seed);
        course(&["hall", "--seed", seed, "--out", &out.display().to_string()]);
        let read = |name: &str| fs::read_to_string(out.join(name)).unwrap();
        let (table, sheet) = (read("table.txt"), read("worksheet.txt"));
        let delays = table.lines().filter_map(|line| line.get(36..43));
        let mut delays = delays.filter(|delay| delay.trim() != "0");
        let said = sheet.matches(", fixed delay ").count();
        let Some(delay) = delays.next() else {
            assert_eq!(said, 0);
            continue;
        };
        with_fibre += 1;
        assert_eq!(said, 1);
        assert!(sheet.contains(&format!(", fixed delay {} µs", delay.trim())));
    }
    assert_eq!(with_fibre, 2);
}
