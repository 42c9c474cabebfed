//! What `explain` says of the order of the lines, and that it is so in the lists of the sheets.

mod common;

use common::{course, example_text, hall_folder, hall_lines, Temporary};
use course::session::Session;
use course::status::Status;
use plain::registry::Answer;

/// The sheets' film of the labeller.
const FILM: &str = " 1   502    80000   12336 1542    9000  1   3 3\n";

fn folder(orders: &str) -> Temporary {
    Temporary::with(example_text("hall/table.txt").as_bytes(), orders.as_bytes())
}

/// What `explain` says after the last line's explanation.
fn said(orders: &str) -> Option<String> {
    let outcome = course(&["explain", &folder(orders).word()]);
    assert_eq!(outcome.status, Status::Fine, "{}", outcome.errors);
    let at = outcome.printed.find("\n\nlines 1 to ")?;
    Some(outcome.printed[at + 2..].to_string())
}

fn all_of(lines: usize) -> Option<String> {
    Some(format!(
        "lines 1 to {lines}: their order doesn't matter
    All {lines} were admitted. In any other order each is admitted too, and every queue's figures and bounds come out the same.
    Only the places go by the order, 1 to {lines} as they come. Any part of the lines is admitted too, in any order.
"
    ))
}

fn some_of(admitted: usize, lines: usize) -> Option<String> {
    Some(format!(
        "lines 1 to {lines}: their order can matter
    Admitted: {admitted} of {lines}. Where not all are, no order gets all of them in, but another may let others in, more or fewer.
"
    ))
}

#[test]
fn admitted_whole() {
    for (numbers, lines) in [
        (&[1, 2, 3, 5, 6][..], 5),
        (&[6, 5, 3, 2, 1], 5),
        (&[5, 1], 2),
    ] {
        assert_eq!(said(&hall_lines(numbers)), all_of(lines), "{numbers:?}");
    }
}

/// Refused for another's sake, or for its own: malformed (line 13), out of range, on no path.
#[test]
fn not_admitted_whole() {
    assert_eq!(said(&hall_lines(&[5, 18])), some_of(1, 2));
    assert_eq!(said(&hall_lines(&[1, 2, 13])), some_of(2, 3));
    assert_eq!(said(&hall_lines(&[1, 14, 2])), some_of(2, 3));
    assert_eq!(said(&hall_lines(&[10, 11])), some_of(0, 2));
}

/// Done or refused, a release is no registration.
#[test]
fn nothing_with_a_release() {
    let whole = hall_lines(&[1, 2, 3, 5, 6]);
    assert_eq!(said(&(whole.clone() + " 2   101\n")), None);
    assert_eq!(said(&(" 2   101\n".to_string() + &whole)), None);
    assert_eq!(said(&hall_lines(&[5, 18, 23])), None);
}

/// Nor is a change, which goes by what is held when it comes: before its registration it gets 13.
#[test]
fn nothing_with_a_change() {
    let (whole, change) = (
        hall_lines(&[1, 2, 3, 5, 6]),
        hall_lines(&[36]).replace("203", "201"),
    );
    for (orders, codes) in [
        (whole.clone() + &change, [0, 0, 0, 0, 0, 0]),
        (change + &whole, [13, 0, 0, 0, 0, 0]),
    ] {
        let (answers, _) = answered(&orders);
        assert_eq!(
            answers
                .iter()
                .map(|answer| answer.code)
                .collect::<Vec<u64>>(),
            codes
        );
        assert_eq!(said(&orders), None);
    }
    // A malformed one is no change, but a line that isn't admitted.
    assert_eq!(said(&(whole + " 3   201    20000    616\n")), some_of(5, 6));
}

#[test]
fn nothing_of_a_single_line() {
    for numbers in [&[][..], &[1], &[17], &[1, 13], &[13, 14]] {
        assert_eq!(said(&hall_lines(numbers)), None, "{numbers:?}");
    }
}

#[test]
fn nothing_with_a_line_asked_for() {
    for numbers in [[1, 2], [5, 18]] {
        let folder = folder(&hall_lines(&numbers));
        let printed = course(&["explain", &folder.word(), "--line", "2"]).printed;
        assert!(printed.starts_with("line 2: "), "{printed}");
        assert!(!printed.contains("their order"), "{printed}");
    }
}

/// The answers, and the flow at each held place.
fn answered(orders: &str) -> (Vec<Answer>, Vec<u64>) {
    let folder = hall_folder(example_text("hall/table.txt").as_bytes(), orders.as_bytes());
    let session = Session::run(&folder).unwrap_or_else(|failed| panic!("{}", failed.errors));
    let held = session.registry.held();
    let numbers = held.iter().map(|flow| flow.number).collect();
    let answers = session.steps.iter().map(|step| step.answer);
    (answers.collect(), numbers)
}

/// The queues' part of `bounds`, without the flows at their places.
fn queues(orders: &str) -> String {
    let printed = course(&["bounds", &folder(orders).word()]).printed;
    let (queues, flows) = printed.split_once("\nflows, end to end").unwrap();
    assert!(!flows.is_empty());
    queues.to_string()
}

#[test]
fn a_whole_list_of_the_sheets() {
    let (first, last) = (hall_lines(&[1, 2, 3, 5, 6]), hall_lines(&[6, 5, 3, 2, 1]));
    let done: Vec<Answer> = (0..5).map(Answer::done).collect();
    assert_eq!(
        answered(&first),
        (done.clone(), vec![101, 201, 102, 301, 401])
    );
    assert_eq!(answered(&last), (done, vec![401, 301, 102, 201, 101]));
    assert_eq!(queues(&first), queues(&last));
    assert_ne!(queues(&first), queues(&hall_lines(&[1, 3, 5, 6])));
}

/// The gate or the pictures; the film or two cameras.
#[test]
fn lists_of_the_sheets_whose_order_matters() {
    let codes = |orders: &str| {
        let (answers, held) = answered(orders);
        let codes: Vec<u64> = answers.iter().map(|answer| answer.code).collect();
        (codes, held)
    };
    assert_eq!(codes(&hall_lines(&[5, 18])), (vec![0, 22], vec![301]));
    assert_eq!(codes(&hall_lines(&[18, 5])), (vec![0, 22], vec![302]));
    let cameras = hall_lines(&[2, 16]);
    let film_first = codes(&(FILM.to_string() + &cameras));
    assert_eq!(film_first, (vec![0, 21, 21], vec![502]));
    let cameras_first = codes(&(cameras + FILM));
    assert_eq!(cameras_first, (vec![0, 0, 21], vec![201, 203]));
}
