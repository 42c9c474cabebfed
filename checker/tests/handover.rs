//! W-204's writer by hand, its texts read back by all versions, and the comparison with a program: that it passes one that writes
//! what the plain version does, and finds each that doesn't.

#[path = "common/programs.rs"]
mod programs;

use checker::handover::{compare, read_back};
use checker::versions::{admitted_in_turn, versions};
use halls::input;
use halls::rng::Rng;
use plain::causes::{DONE, TEXT_AREA};
use plain::handover::{handover, handover_text, write_handover};
use plain::orders::{read_order, Flow, Hop, KIND};
use plain::programs::{begin, write_call};
use plain::registry::Registry;
use plain::slips::{Growth, Slips};
use plain::table::Queue;
use programs::Comparison;

const TABLE: &[u8] =
    b"   1   1   2   100 1  10000   100000\n   1   1   2   100 2  10000   100000\n   2   2   3   100 1  10000   100000\n";
const SEVEN: &str = " 1     7     1000    1542 1542   10000  1   1 1\n";
const EIGHT: &str = " 1     8      200     500  300   90000  2   1 2   2 1\n";
const NINE: &str = " 1 65535       10   10000   8410000000  1   2 1\n";
const TEN: &str = " 1    10        1      84   84   10000  1   2 1\n";

/// The call that a line is for.
fn kind(line: &str) -> u64 {
    KIND.read(line.as_bytes()).unwrap()
}

fn calls(lines: &[&str]) -> Vec<u8> {
    let call = |line: &&str| write_call(kind(line), line.as_bytes());
    lines.iter().flat_map(call).collect()
}

fn registry(lines: &[&str]) -> Registry {
    let (mut registry, _) = Registry::open(TABLE);
    for line in lines {
        let answer = registry.call(kind(line), line.as_bytes());
        assert_eq!(answer.code, DONE, "{line}");
    }
    registry
}

fn text(lines: &[&str]) -> String {
    String::from_utf8(handover(TABLE, &calls(lines)).out).unwrap()
}

#[test]
fn lines_are_written_as_they_were_read() {
    assert_eq!(text(&[]), "");
    assert_eq!(text(&[SEVEN, EIGHT, NINE]), [SEVEN, EIGHT, NINE].concat());
}

/// 7 at slot 1 goes, and 10 comes there; 8 at slot 2 goes and leaves a gap; 65,535 at slot 3 is changed. A refused order leaves
/// nothing.
#[test]
fn lowest_slot_first() {
    let changed = NINE.replace("10   10000", "99     840");
    let list = [
        SEVEN,
        EIGHT,
        NINE,
        SEVEN,
        " 2     7\n",
        TEN,
        " 2     8\n",
        " 3 65535       99     840\n",
        " 3 65535       99      83\n",
        " 2     8\n",
    ];
    assert_eq!(text(&list), [TEN, &changed].concat());
}

/// 42 bytes and 6 for each hop.
#[test]
fn an_area_just_long_enough() {
    let held = registry(&[SEVEN, EIGHT]);
    let length = 48 + 54;
    let known = [SEVEN, EIGHT].concat();
    for more in [0, 1, 500] {
        let mut area = vec![7; length + more];
        assert_eq!(write_handover(&held, &mut area), (DONE, length));
        assert_eq!(&area[..length], known.as_bytes());
        assert!(area[length..].iter().all(|&byte| byte == 7));
    }
    for less in [1, 48, length] {
        let mut area = vec![7; length - less];
        assert_eq!(write_handover(&held, &mut area), (TEXT_AREA, 0));
        assert!(area.iter().all(|&byte| byte == 7));
    }
    let empty = registry(&[]);
    assert_eq!(write_handover(&empty, &mut []), (DONE, 0));
}

/// Every slot and every hop entry: 256 × 42 + 1,024 × 6 bytes.
#[test]
fn the_longest_text() {
    let line = |link: u64| {
        format!(
            "{link:>4}{link:>4}{:>4} 10000 1   1000   100000\n",
            link + 1
        )
    };
    let table: String = (1..=4).map(line).collect();
    let hops = (1..=4).map(|link| Hop { link, level: 1 });
    let flow = |number| Flow {
        number,
        rate: 1,
        burst: 84,
        frame: 84,
        deadline: 10_000,
        hops: hops.clone().collect(),
    };
    let (mut registry, _) = Registry::open(table.as_bytes());
    for number in 1..=256 {
        let slots = [Some(flow(number))];
        assert_eq!(registry.register(&handover_text(&slots)).code, DONE);
    }
    let text = handover_text(&registry.slots);
    assert_eq!(text.len(), 16_896);
    read_back(&versions(), table.as_bytes(), &text, &registry).unwrap();
}

#[test]
fn what_is_said_apart_from_the_text() {
    let whole = calls(&[SEVEN, EIGHT]);
    let said = |table: &[u8], list: &[u8]| {
        let printed = handover(table, list);
        let words = String::from_utf8(printed.said).unwrap();
        (printed.out.len(), words)
    };
    assert_eq!(said(TABLE, &whole), (102, String::new()));
    let cut = &whole[..whole.len() - 1];
    assert_eq!(said(TABLE, cut), (48, "end        57\n".to_string()));
    assert_eq!(said(b"x", &whole), (0, "  1     1\n".to_string()));
    let both = "  1     1\nend        57\n".to_string();
    assert_eq!(said(b"x", cut), (0, both));
    assert_eq!(said(b"", b""), (0, String::new()));
}

/// What reading a text back tells, where it was written from a registry with these flows.
fn told(text: &str, lines: &[&str]) -> String {
    let from = registry(lines);
    let outcome = read_back(&versions(), TABLE, text.as_bytes(), &from);
    outcome.err().unwrap_or_default()
}

#[test]
fn wrong_texts_are_found_as_they_are_read_back() {
    let lines = [SEVEN, EIGHT, NINE];
    let whole = lines.concat();
    assert_eq!(told(&whole, &lines), "");
    let other = "read back: other flows, or in another order";
    assert_eq!(told(&[NINE, EIGHT, SEVEN].concat(), &lines), other);
    assert_eq!(told(&[SEVEN, NINE].concat(), &lines), other);
    assert_eq!(told(&whole.replace("  500", "  501"), &lines), other);
    let short = told(&whole.replace(" 1     8", " 1    8"), &lines);
    assert!(short.starts_with("read back: line 2: Answer { code: 10,"));
    let twice = told(&[SEVEN, EIGHT, NINE, NINE].concat(), &lines);
    assert!(twice.starts_with("read back: line 4: Answer { code: 12,"));
    let unended = told(&whole[..whole.len() - 1], &lines);
    assert!(unended.starts_with("read back: line 3: Answer { code: 10,"));
}

/// A batch that answers each line with the place after its own.
fn next_place(table: &[u8], orders: &[u8], answers: &mut [u8]) -> (u32, u32) {
    let (code, count) = plain::programs::batch(table, orders, answers);
    for answer in answers.chunks_mut(20) {
        answer[12] += 1;
    }
    (code as u32, count as u32)
}

#[test]
fn a_version_that_reads_it_otherwise_is_found() {
    let from = registry(&[SEVEN, EIGHT]);
    let text = handover_text(&from.slots);
    let told = read_back(&[("next place", next_place)], TABLE, &text, &from);
    assert!(told.unwrap_err().starts_with("next place: (0, 2)"));
}

/// What a controller from before W-208 holds after some orders, by whole thresholds in S.
fn older(table: &[u8], orders: &[u8]) -> Option<Registry> {
    let (registry, lines) = begin(table, orders).ok()?;
    let slips = Slips {
        growth: Growth::WholeThresholds,
        ..Slips::NONE
    };
    let mut older = Registry::slipping(registry.queues, slips);
    for line in &lines {
        older.step(read_order(line));
    }
    Some(older)
}

/// Its text is admitted line by line by every version, though its figures weren't these.
#[test]
fn a_text_from_before_w208_is_admitted() {
    let (mut texts, mut others) = (0, 0);
    for index in 0..400 {
        let given = input(&mut Rng::new(8, index), false);
        let Some(older) = older(&given.table, &given.orders) else {
            continue;
        };
        let text = handover_text(&older.slots);
        let flows = older.held().len();
        admitted_in_turn(&versions(), &given.table, &text, flows).unwrap();
        let newer = older.by(Slips::NONE);
        let differs =
            |queue: &Queue| older.figures(queue.link, None) != newer.figures(queue.link, None);
        texts += usize::from(flows > 1);
        others += usize::from(older.queues.iter().any(differs));
    }
    assert!(texts > 100 && others > 50, "{texts} {others}");
}

const COMPARISON: Comparison = Comparison {
    command: "handover",
    run: |program, count| Ok(compare(program, 7, count)?.missing()),
};

#[test]
fn the_plain_writer_passes_and_every_kind_occurs() {
    COMPARISON.passes_and_meets_every_kind();
}

#[test]
fn wrong_writers_are_found() {
    COMPARISON.finds_wrong_programs(&[
        "| tac",
        "| sed 's/^ //'",
        "| sed 's/^ 1/ 2/'",
        "| head -n -1",
        "| head -c -1",
        "| sed 's/$/ /'",
        "2>&1",
        "&& echo",
    ]);
}
