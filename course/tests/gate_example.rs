//! The gate of the sheet "Offer by offer": examples/gate through the plain version, and its README's sums.

mod common;

use common::example_text;
use plain::gate::{offer, open, Gate, DROPPED, PASSED, TURN};
use plain::offers::offers;

/// The number in these columns, counted from 1.
fn number(line: &str, from: usize, to: usize) -> u64 {
    line[from - 1..to].trim_start().parse().unwrap()
}

fn reading(time: u64) -> u32 {
    (time % TURN) as u32
}

/// Each line of a list of offers: the clock, the code, the gate after it.
fn answered(list: &str) -> Vec<(u32, u32, Gate)> {
    let mut lines = list.lines();
    let first = lines.next().unwrap();
    assert_eq!(first.len(), 31);
    let mut time = number(first, 23, 31);
    let numbers = [(1, 9), (10, 17), (18, 22)].map(|(from, to)| number(first, from, to));
    let (mut gate, code) = open(numbers[0], numbers[1], numbers[2], reading(time));
    let mut found = vec![(reading(time), code, gate)];
    for line in lines {
        assert_eq!(line.len(), 14);
        time += number(line, 6, 14);
        let answer = offer(gate, number(line, 1, 5), reading(time));
        gate = answer.0;
        found.push((reading(time), answer.1, gate));
    }
    found
}

#[test]
fn what_is_printed() {
    let found = answered(&example_text("gate/offers.txt"));
    let line = |(_, code, gate): &(u32, u32, Gate)| format!("{code:>3}{:>14}\n", gate.tokens);
    let printed: String = found.iter().map(line).collect();
    assert_eq!(printed, example_text("gate/printed.txt"));
    let clock: Vec<u32> = found.iter().map(|(clock, _, _)| *clock).collect();
    assert!(clock.windows(2).any(|two| two[1] < two[0]));
}

/// The table in README.md: line, clock, .., answer, what is left.
#[test]
fn the_sums_beside_it() {
    let found = answered(&example_text("gate/offers.txt"));
    let readme = example_text("gate/README.md");
    let mut rows = 0;
    for row in readme.lines().filter(|row| row.starts_with("| ")) {
        let cells: Vec<&str> = row.trim_matches('|').split('|').map(str::trim).collect();
        let Ok(line) = cells[0].parse::<usize>() else {
            continue;
        };
        let (clock, code, gate) = found[line - 1];
        let whole = |cell: &str| cell.replace(',', "").parse::<u64>().unwrap();
        assert_eq!(
            (whole(cells[1]), whole(cells[6])),
            (clock.into(), gate.tokens)
        );
        let answer = cells[5].split([',', ';']).next().unwrap();
        assert_eq!(whole(answer), u64::from(code), "line {line}");
        rows += 1;
    }
    assert_eq!(rows, found.len());
}

/// What `offers` prints of a list that breaks off: the lines before, and where.
#[test]
fn the_sheets_cuts() {
    let (list, printed) = (
        example_text("gate/offers.txt"),
        example_text("gate/printed.txt"),
    );
    let lines: Vec<&str> = list.split_inclusive('\n').collect();
    let squeezed = lines[5].replace(' ', "");
    let others = [lines[..5].concat(), squeezed, lines[6..].concat()].concat();
    for (list, kept, end) in [
        (list.as_str(), 15, ""),
        (&list[..list.len() - 1], 14, "end        15\n"),
        (&others, 5, "end         6\n"),
    ] {
        let answers: String = printed.split_inclusive('\n').take(kept).collect();
        let out = offers(list.as_bytes()).out;
        assert_eq!(String::from_utf8(out).unwrap(), answers + end);
    }
}

/// The solutions' other lines in place of these.
#[test]
fn the_sheets_questions() {
    let list = example_text("gate/offers.txt");
    let lines: Vec<&str> = list.lines().collect();
    // 200 bytes after line 6 and the two drops, 533 and 534 µs after line 6.
    for (wait, code) in [(434, DROPPED), (435, PASSED)] {
        let other = format!("{}\n  200{wait:>9}\n", lines[..8].join("\n"));
        assert_eq!(answered(&other).last().unwrap().1, code);
    }
    // Line 9 taken for a reading that is stored: its µs are lost.
    let mut gate = answered(&lines[..8].join("\n"))[7].2;
    gate.reading = 0;
    for (reading, there) in [(166, 795_000), (167, 798_000)] {
        let (after, code) = offer(gate, 100, reading);
        assert_eq!((after.tokens, code), (there, DROPPED));
        gate = after;
    }
    // A clock that goes back by 1 µs: the gate is full at once.
    let (after, code) = offer(gate, 100, gate.reading - 1);
    assert_eq!((after.tokens, code), (8_000 * 300, PASSED));
}
