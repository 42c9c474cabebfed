//! The search for the longest stay, by a count of runs, so that it is the same on every machine.

mod common;

use common::{course as call, example, Temporary};
use course::status::{Outcome, Status};

/// A search of a hall by so many runs; what it ends with must be fine.
fn search(hall: &str, tries: &str, further: &[&str]) -> Outcome {
    let hall = example(hall);
    let words = [
        "traffic",
        &hall,
        "--search",
        "--seconds",
        "600",
        "--tries",
        tries,
    ];
    let outcome = call(&[&words[..], further].concat());
    assert_eq!(outcome.status, Status::Fine, "{}", outcome.errors);
    outcome
}

fn verdict(outcome: &Outcome) -> &str {
    outcome.printed.lines().last().unwrap_or_default()
}

/// Link, level and stay of `.. longest 246 of 371 µs at link 1 level 1`.
fn longest(words: &str) -> (&str, &str, &str) {
    let (_, words) = words.split_once("longest ").unwrap();
    let (stay, words) = words.split_once(" of ").unwrap();
    let (_, words) = words.split_once(" at link ").unwrap();
    let (link, level) = words.split_once(" level ").unwrap();
    (link, level, stay)
}

#[test]
fn what_it_writes_reproduces_its_stay() {
    let folder = Temporary::new();
    let out = folder.0.join("out").display().to_string();
    let searches: [(&str, &[&str]); 4] = [
        ("hall", &[]),
        ("hall", &["--arrivals", "last", "--seed", "9"]),
        ("shared", &["--queue", "3.1"]),
        ("two-flows", &[]),
    ];
    for (hall, further) in searches {
        let found = search(hall, "300", &[&["--out", &out], further].concat());
        let order: &[&str] = match further {
            ["--arrivals", order, ..] => &["--arrivals", order],
            _ => &[],
        };
        let again = call(&[&["traffic", &example(hall), &out], order].concat());
        assert_eq!(again.status, Status::Fine, "{}", again.errors);
        assert_eq!(verdict(&again), verdict(&found));
        let first = found.printed.lines().next().unwrap();
        let (link, level, stay) = longest(first);
        let start = format!("{link:>6}  {level:>5}");
        let mut rows = again.printed.lines();
        let row = rows.find(|line| line.starts_with(&start)).unwrap();
        assert_eq!(row.split_whitespace().nth(2), Some(stay), "{first}");
    }
}

#[test]
fn without_a_file_it_prints_them() {
    let found = search("two-flows", "100", &[]);
    let sends = "\n0 8 1542\n1 7 1542\n\n2 frames of 2 flows";
    assert!(found.printed.contains(sends), "{}", found.printed);
    let expected = "no frame late; closest link 1 level 1, 246 of 371 µs";
    assert_eq!(verdict(&found), expected);
}

/// The stored schedules of exercise four are what it finds.
#[test]
fn the_near_schedules_are_found() {
    let folder = Temporary::new();
    let out = folder.0.join("out").display().to_string();
    let found = |further: &[&str], stored: &str, expected: &str| {
        let outcome = search("shared", "3000", &[&["--out", &out], further].concat());
        assert_eq!(verdict(&outcome), expected);
        let stored = std::fs::read_to_string(example(stored)).unwrap();
        assert_eq!(std::fs::read_to_string(&out).unwrap(), stored);
    };
    let first = "no frame late; closest link 2 level 1, 156 of 164 µs";
    found(&[], "shared/near-1.txt", first);
    let second = "no frame late; closest link 1 level 2, 1,035 of 1,166 µs";
    found(&["--queue", "1.2"], "shared/near-2.txt", second);
}

/// The solutions' two schedules at the shared link: the simple one soon, a longer stay later.
#[test]
fn the_shared_link_is_searched() {
    let soon = search("shared", "300", &["--queue", "3.1"]);
    let sends = "\n0 11 100 x 4\n0 12 100 x 4\n7 31 1542\n\n";
    assert!(soon.printed.contains(sends), "{}", soon.printed);
    let later = search("shared", "3000", &["--queue", "3.1"]);
    for (found, stay) in [(&soon, 163), (&later, 164)] {
        let words = format!("no frame late; closest link 3 level 1, {stay} of 202 µs");
        assert_eq!(verdict(found), words);
    }
}

#[test]
fn nothing_can_be_sent_without_a_flow() {
    let folder = Temporary::with(b"", b"");
    let outcome = call(&["traffic", &folder.word(), "--search"]);
    assert_eq!(outcome.status, Status::Wrong);
    assert!(
        outcome.errors.contains("no flow is held"),
        "{}",
        outcome.errors
    );
    let sends = folder.write("sends.txt", b"");
    let outcome = call(&["traffic", &folder.word(), &sends]);
    assert_eq!(outcome.status, Status::Fine);
    assert_eq!(verdict(&outcome), "no flow's frame sent");
}
