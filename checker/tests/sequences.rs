//! W-205's rule by hand, put to all versions, and over random halls; and that the run over them finds what goes by the order.

mod common;

use checker::sequences::{only_the_first_grows, run, Judges};
use common::printed;
use plain::columns::lines;
use plain::orders::NUMBER;
use plain::programs::{batch, ANSWER_BYTES};

/// A link at 100 Mbit/s: the film leaves no room for a camera, two cameras none for the film.
const TABLE: &str = "   1   1   2   100 1   5000    50000\n";
const FILM: &str = " 1     1    80000   12336 1542    9000  1   1 1\n";
const CAMERA: &str = " 1     2    20000    6168 1542    9000  1   1 1\n";
const ANOTHER: &str = " 1     3    40000    6168 1542    9000  1   1 1\n";

/// Code and place of each line's answer.
fn answers(lines: &[&str]) -> Vec<String> {
    let text = printed(TABLE, &lines.concat());
    text.lines().map(|line| line[6..13].to_string()).collect()
}

#[test]
fn one_film_or_two_cameras() {
    let [first, second, refused] = ["  0   1", "  0   2", " 21   0"];
    assert_eq!(answers(&[FILM, CAMERA, ANOTHER]), [first, refused, refused]);
    assert_eq!(answers(&[CAMERA, ANOTHER, FILM]), [first, second, refused]);
    assert_eq!(answers(&[ANOTHER, CAMERA, FILM]), [first, second, refused]);
    for part in [FILM, CAMERA, ANOTHER] {
        assert_eq!(answers(&[part]), [first]);
    }
}

#[test]
fn whole_lists_are_admitted_in_every_order() {
    let report = run(6, 150, &Judges::right()).unwrap();
    assert!(report.lists > 50 && report.parts > 100, "{}", report.lists);
    assert!(report.complete(), "{} {}", report.others, report.more);
}

#[test]
fn a_count_that_goes_by_the_order_is_found() {
    let mistaken = Judges {
        count: only_the_first_grows,
        ..Judges::right()
    };
    let found = run(6, 150, &mistaken).err().unwrap_or_default();
    assert!(found.ends_with("gives other figures"), "{found}");
}

/// A batch that answers the last line with another place where its flow's number is below the first one's.
fn by_the_order(table: &[u8], orders: &[u8], answers: &mut [u8]) -> (u32, u32) {
    let (code, count) = batch(table, orders, answers);
    let numbers: Vec<_> = lines(orders)
        .iter()
        .map(|line| NUMBER.read(line.bytes).unwrap())
        .collect();
    if numbers.last() < numbers.first() {
        answers[ANSWER_BYTES * count as usize - 8] += 1;
    }
    (code as u32, count as u32)
}

#[test]
fn answers_that_go_by_the_order_are_found() {
    let mut judges = Judges::right();
    judges.batches = vec![("by the order", by_the_order)];
    let found = run(6, 150, &judges).err().unwrap_or_default();
    assert!(found.contains("by the order: (0, "), "{found}");
}
