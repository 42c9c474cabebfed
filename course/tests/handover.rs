//! `handover`: the text of the example halls and of random ones, what is said of it, and that a text that reads otherwise is found.

mod common;

use common::{course, example_text, hall, hall_folder, hall_lines, honest, Temporary};
use course::folder::Folder;
use course::handover::read_back;
use course::session::Session;
use course::status::{Outcome, Status};
use halls::input;
use halls::rng::Rng;
use plain::handover::{handover, handover_text};
use plain::programs::{admit, answer_line, replay};
use plain::registry::{aggregate_by, Answer};
use plain::slips::{Growth, Slips};

fn written(words: &[&str]) -> Outcome {
    let outcome = course(&[&["handover"], words].concat());
    assert_eq!(outcome.status, Status::Fine, "{}", outcome.errors);
    outcome
}

/// Places 5 and 7 are free again, 302 came late to place 3, and 203 is as it was before its change.
#[test]
fn the_example_hall() {
    let whole = written(&[&hall()]);
    assert_eq!(whole.printed, hall_lines(&[1, 25, 29, 31, 16]));
    assert!(whole.errors.contains("5 flows, 282 bytes\n"));
    assert!(whole
        .errors
        .contains("each line admitted, at places 1 to 5;"));
    let changed = written(&[&hall(), "--after", "35"]);
    let line_16 = hall_lines(&[16]).replace("20000    6168", "30000    9252");
    assert_eq!(changed.printed, hall_lines(&[1, 25, 29, 31]) + &line_16);
    assert_eq!(
        written(&[&hall(), "--after", "5"]).printed,
        hall_lines(&[1, 2, 3, 5])
    );
}

#[test]
fn few_flows() {
    let none = written(&[&hall(), "--after", "0"]);
    assert_eq!(none.printed, "");
    assert!(none
        .errors
        .ends_with("no flow is held: the text is empty\n"));
    let one = written(&[&hall(), "--after", "1"]);
    assert_eq!(one.printed, hall_lines(&[1]));
    assert!(one.errors.contains("1 flow, 66 bytes\n"));
    assert!(one.errors.contains("each line admitted, at place 1;"));
}

/// Every text is its own handover, and so is one that `--after` cuts.
#[test]
fn a_text_written_again() {
    let text = written(&[&hall()]).printed;
    let table = example_text("hall/table.txt");
    let next = Temporary::with(table.as_bytes(), text.as_bytes());
    assert_eq!(written(&[&next.word()]).printed, text);
    let three = text.lines().take(3).map(|line| format!("{line}\n"));
    let part = written(&[&next.word(), "--after", "3"]).printed;
    assert_eq!(part, three.collect::<String>());
}

/// The sheet's swap: places 1, 3 and 4 become 1, 2 and 3; the figures, and what is written, stay.
#[test]
fn the_sheets_swap() {
    let read = |name: &str| example_text(&format!("handover/{name}")).into_bytes();
    let (table, calls, text) = (read("table.txt"), read("calls.txt"), read("printed.txt"));
    assert_eq!(handover(&table, &calls).out, text);
    let before = String::from_utf8(replay(&table, &calls)).unwrap();
    let lines: Vec<&str> = before.lines().collect();
    let (answers, state) = lines.split_at(9);
    assert_eq!(answers[4], " 22   0   2 2");
    assert_eq!(answers[8], "  0   1   0 0");
    let places: Vec<&str> = state[4..].iter().map(|line| &line[..10]).collect();
    assert_eq!(places, ["   1    41", "   3    12", "   4    31"]);

    let done: Vec<u8> = (0..3)
        .flat_map(|index| answer_line(index + 1, &Answer::done(index)))
        .collect();
    assert_eq!(admit(&table, &text), done);
    let again: Vec<u8> = text
        .split_inclusive(|&byte| byte == b'\n')
        .flat_map(|line| plain::programs::write_call(1, line))
        .collect();
    let after = String::from_utf8(replay(&table, &again)).unwrap();
    let after: Vec<&str> = after.lines().skip(3).collect();
    assert_eq!(after[..4], state[..4]);
    for (place, (new, old)) in after[4..].iter().zip(&state[4..]).enumerate() {
        assert_eq!(new[..4], format!("{:>4}", place + 1));
        assert_eq!(new[4..], old[4..]);
    }
    let next = Temporary::with(&table, &text);
    assert_eq!(written(&[&next.word()]).printed.as_bytes(), text);
}

/// What the sheet says of camera 22: refused as 21 was held, not in the text, and admitted once it is ordered again.
#[test]
fn a_refused_order_comes_again() {
    let camera = " 1    22    20000    6168 1542    4000  1   2 2\n";
    assert!(example_text("handover/calls.txt").contains(camera));
    assert!(!example_text("handover/printed.txt").contains(camera));
    let orders = example_text("handover/printed.txt") + camera;
    let printed = admit_text(&example_text("handover/table.txt"), &orders);
    assert!(printed.ends_with("     4  0   4   0 0\n"));
}

fn admit_text(table: &str, orders: &str) -> String {
    String::from_utf8(admit(table.as_bytes(), orders.as_bytes())).unwrap()
}

/// A file without its last byte: the last call isn't made, or the table is refused.
#[test]
fn the_sheets_cuts() {
    let (table, calls) = (
        example_text("handover/table.txt").into_bytes(),
        example_text("handover/calls.txt").into_bytes(),
    );
    let left = handover(&table, &calls[..calls.len() - 1]);
    let text = example_text("handover/printed.txt");
    let (_, others) = text.split_once('\n').unwrap();
    assert_eq!(left.out, others.as_bytes());
    assert_eq!(left.said, b"end       368\n");
    let refused = handover(&table[..table.len() - 1], &calls);
    assert_eq!(refused.out, b"");
    assert_eq!(refused.said, b"  1     4\n");
}

#[test]
fn the_sheets_other_table() {
    let (table, text) = (
        example_text("handover/table.txt"),
        example_text("handover/printed.txt"),
    );
    let third = |threshold: &str| {
        let other = table.replace("   1200 ", &format!("{threshold:>7} "));
        let answers = admit_text(&other, &text);
        assert_eq!(&answers[..40], "     1  0   1   0 0\n     2  0   2   0 0\n");
        answers[46..].to_string()
    };
    assert_eq!(third("295"), " 22   0   2 2\n");
    assert_eq!(third("296"), "  0   3   0 0\n");
}

/// The burst sum of link 2 level 1 by the count from before W-208.
#[test]
fn the_sheets_older_version() {
    let orders = example_text("handover/printed.txt");
    let folder = hall_folder(
        example_text("handover/table.txt").as_bytes(),
        orders.as_bytes(),
    );
    let registry = Session::run(&folder).unwrap().registry;
    let burst_by = |growth| {
        let slips = Slips {
            growth,
            ..Slips::NONE
        };
        let queues = &registry.queues;
        aggregate_by(queues, &registry.held(), &queues[2], slips).burst
    };
    assert_eq!(burst_by(Growth::WholeThresholds), 516);
    assert_eq!(burst_by(Growth::Once), 515);
}

#[test]
fn random_halls() {
    let (mut met, mut gaps) = (0, 0);
    for index in 0..120 {
        let given = input(&mut Rng::new(31, index), false);
        let folder = Temporary::with(&given.table, &given.orders);
        let outcome = course(&["handover", &folder.word()]);
        if outcome.status != Status::Fine {
            assert!(outcome.errors.contains("the batch is refused with"));
            continue;
        }
        let known = Session::run(&hall_folder(&given.table, &given.orders)).unwrap();
        let slots = &known.registry.slots;
        assert_eq!(outcome.printed.as_bytes(), handover_text(slots));
        folder.write("orders.txt", outcome.printed.as_bytes());
        assert_eq!(written(&[&folder.word()]).printed, outcome.printed);
        let held = known.registry.held().len();
        met += usize::from(held > 1);
        gaps += usize::from(slots[held..].iter().any(Option::is_some));
    }
    assert!(met > 30 && gaps > 3, "{met} {gaps}");
}

#[test]
fn how_it_ends() {
    let table = example_text("hall/table.txt");
    let cut = Temporary::with(&table.as_bytes()[1..], b"");
    let refused = course(&["handover", &cut.word()]);
    assert_eq!(refused.status, Status::Wrong);
    assert!(refused.errors.contains("the batch is refused with 1"));
    assert_eq!(refused.printed, "");
    let past = course(&["handover", &hall(), "--after", "37"]);
    assert_eq!(past.status, Status::Usage);
    assert!(past.errors.contains("orders.txt has 36 lines"));
    let nowhere = course(&["handover", "/nowhere"]);
    assert_eq!(nowhere.status, Status::Wrong);
    assert!(nowhere.errors.contains("orders.txt: can't be read"));
}

/// The example hall, and a text read as if its flows had been written so.
fn read_as(beside: Option<proved::Batch>, text: &str) -> Result<String, Outcome> {
    let folder: Folder = hall_folder(example_text("hall/table.txt").as_bytes(), b"");
    let orders = hall_lines(&[1, 2, 3]);
    let from = Session::run(&hall_folder(&folder.table, orders.as_bytes())).unwrap();
    read_back(beside, &folder, text.as_bytes(), &from.registry)
}

#[test]
fn texts_that_read_otherwise_are_found() {
    assert!(read_as(None, &hall_lines(&[1, 2, 3])).is_ok());
    for (text, what) in [
        (hall_lines(&[3, 2, 1]), "other flows are held"),
        (hall_lines(&[1, 2]), "other flows are held"),
        (hall_lines(&[1, 2, 3, 3]), "line 4 isn't admitted"),
        (hall_lines(&[1, 13, 3, 13]), "line 2 isn't admitted"),
        (
            hall_lines(&[1, 2, 3]).replace(" 6168", " 6167"),
            "other flows are held",
        ),
    ] {
        let failed = read_as(None, &text).unwrap_err();
        assert_eq!(failed.status, Status::Wrong);
        assert_eq!(failed.printed, "");
        let words = format!("doesn't read back as it was written: {what}.");
        assert!(failed.errors.contains(&words), "{}", failed.errors);
    }
}

/// A library that gives every flow place 1.
fn first_place(table: &[u8], orders: &[u8], answers: &mut [u8]) -> (u32, u32) {
    let outcome = honest(table, orders, answers);
    for answer in answers.chunks_mut(20) {
        answer[12] = b'1';
    }
    outcome
}

#[test]
fn the_library_beside_it() {
    let text = hall_lines(&[1, 2, 3]);
    let said = read_as(Some(honest), &text).unwrap();
    assert!(said.ends_with("\nthe proved library's batch answers the same\n"));
    assert!(!read_as(None, &text).unwrap().contains("library"));
    let failed = read_as(Some(first_place), &text).unwrap_err();
    assert!(
        failed.errors.contains("line 2: proved `"),
        "{}",
        failed.errors
    );
}
