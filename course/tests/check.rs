//! Each typing mistake that a trainee makes, and what `check` says of it.

mod common;

use common::{course, root, said, Temporary};
use course::numbers::commas;
use course::status::Status;
use std::fs;

const TABLE: &str = "   1   1   2   100 1    250     4000\n   1   1   2   100 2   1000    16000\n";
const ORDERS: &str = " 1   101      800     200  200    1000  1   1 1\n 2   101\n";

fn in_orders(from: &str, to: &str, expected: &str) {
    assert!(ORDERS.contains(from), "{from}");
    let changed = ORDERS.replacen(from, to, 1);
    assert_eq!(
        said(TABLE.as_bytes(), changed.as_bytes()),
        [expected],
        "{to}"
    );
}

fn in_table(from: &str, to: &str, expected: &[&str]) {
    assert!(TABLE.contains(from), "{from}");
    let changed = TABLE.replacen(from, to, 1);
    assert_eq!(
        said(changed.as_bytes(), ORDERS.as_bytes()),
        expected,
        "{to}"
    );
}

#[test]
fn nothing_wrong() {
    assert!(said(TABLE.as_bytes(), ORDERS.as_bytes()).is_empty());
    assert!(said(b"", b"").is_empty());
}

#[test]
fn order_lines() {
    in_orders("   800", " 1,800", "orders.txt:1:14: rate: a comma");
    in_orders("   800", "  +800", "orders.txt:1:14: rate: a sign, `+`");
    in_orders("   800", "   8.0", "orders.txt:1:16: rate: a point");
    in_orders("   800", "   80O", "orders.txt:1:17: rate: a letter, `O`");
    in_orders("   800", "  0800", "orders.txt:1:14: rate: a leading zero");
    in_orders("   800", "  \t800", "orders.txt:1:14: rate: a tab");
    in_orders(
        "   800",
        "  80 0",
        "orders.txt:1:16: rate: a blank right of a digit",
    );
    in_orders("   800", "      ", "orders.txt:1:9: rate: no number");
    in_orders(
        "   800",
        "     0",
        "orders.txt:1:9: rate: 0 is out of range, 1 to 10,000,000",
    );
    in_orders(
        "   800",
        "  800",
        "orders.txt:1:9: rate: 1 column too few before its number",
    );
    in_orders(
        "   800",
        "    800",
        "orders.txt:1:9: rate: 1 column too many before its number",
    );
    in_orders(
        "  1   1 1",
        "  2   1 1",
        "orders.txt:1:48: hop's link: the line ends after 47 columns",
    );
    in_orders(
        "  1   1 1",
        "  0   1 1",
        "orders.txt:1:39: hop count: 0 is out of range, 1 to 12",
    );
    in_orders(
        "   1 1\n",
        "   1 1 \n",
        "orders.txt:1:48: 1 column too many: the line has 48, 47 are right",
    );
}

#[test]
fn order_line_ends() {
    in_orders(
        " 2   101",
        " 4   101",
        "orders.txt:2:1: kind: 4 is out of range, 1 to 3",
    );
    in_orders(
        " 2   101",
        " 2 70000",
        "orders.txt:2:3: flow number: 70,000 is out of range, 1 to 65,535",
    );
    in_orders(
        " 2   101",
        "",
        "orders.txt:2:1: kind: the line ends after 0 columns",
    );
    in_orders(
        " 2   101\n",
        " 2   101",
        "orders.txt:2:9: no LF at the end of the last line",
    );
    in_orders(
        " 2   101\n",
        " 2   101\r\n",
        "orders.txt:2:9: a CR before the LF",
    );
    in_orders(
        "1 1\n 2",
        "1 1 2",
        "orders.txt:1:48: another line begins here: the LF before it is missing",
    );
    in_orders(
        " 1   101",
        "\u{feff} 1   101",
        "orders.txt:1:1: a byte order mark before the first column",
    );
}

/// What comes next is never past the last level or link.
#[test]
fn lines_out_of_turn_after_the_last() {
    in_table(
        "   100 1",
        "   100 8",
        &[
            "table.txt:1:1: link: link 1 level 8 is out of turn: link 1 level 1 comes first",
            "table.txt:2:1: link: link 1 level 2 is out of turn: link 2 level 1 comes here",
        ],
    );
    in_table(
        "   1   1   2   100 1",
        "  64   1   2   100 8",
        &[
            "table.txt:1:1: link: link 64 level 8 is out of turn: link 1 level 1 comes first",
            "table.txt:2:1: link: link 1 level 2 is out of turn: no line comes here",
        ],
    );
}

#[test]
fn table_lines() {
    in_table("   100 2", "   100 3", &["table.txt:2:1: link: link 1 level 3 is out of turn: link 1 level 2 or link 2 level 1 comes here"]);
    in_table("   1   1", "   2   1", &[
        "table.txt:1:1: link: link 2 level 1 is out of turn: link 1 level 1 comes first",
        "table.txt:2:1: link: link 1 level 2 is out of turn: link 2 level 2 or link 3 level 1 comes here",
    ]);
    in_table(
        "   100 2",
        "   200 2",
        &["table.txt:2:13: speed: 200 differs from 100 in the line before, of the same link"],
    );
    in_table(
        "    250",
        " 100001",
        &["table.txt:1:21: threshold: 100,001 is out of range, 1 to 100,000"],
    );
    in_table(
        "     4000",
        "    4,000",
        &["table.txt:1:33: buffer: a comma"],
    );
    in_table(
        "    250",
        "   250",
        &["table.txt:1:21: threshold: 1 column too few before its number"],
    );
    in_table(
        "16000\n",
        "16000",
        &["table.txt:2:37: no LF at the end of the last line"],
    );
    let loops = TABLE.replace("   1   1   2", "   1   2   2");
    assert_eq!(
        said(loops.as_bytes(), b""),
        [
            "table.txt:1:9: to node: the link ends where it starts, at node 2",
            "table.txt:2:9: to node: the link ends where it starts, at node 2",
        ]
    );
}

#[test]
fn whole_files() {
    let crlf = TABLE.replace('\n', "\r\n");
    assert_eq!(
        said(crlf.as_bytes(), b""),
        ["table.txt:1:37: CR LF: all 2 lines end so, not in LF alone"]
    );
    let swapped =
        "table.txt: this file and orders.txt seem to be swapped: one holds the lines of the other";
    assert_eq!(said(ORDERS.as_bytes(), TABLE.as_bytes()), [swapped]);
    assert_eq!(said(b"", TABLE.as_bytes()), [swapped]);
    // 512 lines of 48 columns and LF are the most.
    let most = 512 * 49;
    let long = TABLE.repeat(most / TABLE.len() + 1);
    let words = format!("{} bytes, at most {}", commas(long.len()), commas(most));
    assert_eq!(said(long.as_bytes(), b""), [format!("table.txt: {words}")]);
    let many = " 2   101\n".repeat(2_001);
    assert_eq!(
        said(b"", many.as_bytes()),
        ["orders.txt: 2,001 lines, at most 2,000"]
    );
}

#[test]
fn files_that_are_missing() {
    let folder = Temporary::new();
    folder.write("orders.txt", ORDERS.as_bytes());
    fs::create_dir(folder.0.join("table.txt")).unwrap();
    let outcome = course(&["check", &folder.word()]);
    assert_eq!(outcome.status, Status::Wrong);
    assert!(
        outcome.printed.contains("table.txt: can't be read: "),
        "{}",
        outcome.printed
    );
    assert!(
        outcome
            .printed
            .contains("(admit counts it as empty)\n1 mistake\n"),
        "{}",
        outcome.printed
    );
}

#[test]
fn the_examples() {
    for name in ["examples", "examples/fragmented", "course/tests/slips"] {
        let outcome = course(&["check", &root().join(name).display().to_string()]);
        assert_eq!(outcome.status, Status::Fine, "{name}: {}", outcome.printed);
    }
}
