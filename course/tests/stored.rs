//! What the commands print for the stored halls, compared with stored output. `STORE=1 cargo test` writes it anew: read it
//! against the sums in docs/COURSE-SOLUTIONS.md before it is kept.

mod common;

use common::{course, example, hall, root};
use course::status::Status;
use std::fs;

fn compare(name: &str, words: &[&str], status: Status) {
    let outcome = course(words);
    assert_eq!(outcome.status, status, "{name}: {}", outcome.errors);
    let path = root().join("course/tests/expected").join(name);
    if std::env::var_os("STORE").is_some() {
        fs::write(&path, &outcome.printed).unwrap();
    }
    let stored = fs::read_to_string(&path).unwrap();
    let differing = outcome
        .printed
        .lines()
        .zip(stored.lines())
        .find(|(a, b)| a != b);
    assert!(outcome.printed == stored, "{name}: {differing:?}");
}

#[test]
fn the_example_hall() {
    let hall = hall();
    let printed = root()
        .join("examples/hall/printed.txt")
        .display()
        .to_string();
    compare("check-hall.txt", &["check", &hall], Status::Wrong);
    compare("explain-hall.txt", &["explain", &hall], Status::Fine);
    compare("bounds-hall.txt", &["bounds", &hall], Status::Fine);
    compare(
        "bounds-hall-20.txt",
        &["bounds", &hall, "--after", "20"],
        Status::Fine,
    );
    compare("handover-hall.txt", &["handover", &hall], Status::Fine);
    compare("mark-hall.txt", &["mark", &hall, &printed], Status::Fine);
}

#[test]
fn sources_behind_gates() {
    for (name, folder, sends) in [
        ("gates-shared.txt", "shared", "shared/doubled.txt"),
        ("gates-hall.txt", "hall", "hall/breaking.txt"),
    ] {
        let words = ["traffic", &example(folder), &example(sends), "--gates"];
        compare(name, &words, Status::Fine);
    }
}

#[test]
fn each_slip_in_one_sheet() {
    let folder = root().join("course/tests/slips");
    let sheet = folder.join("sheet.txt").display().to_string();
    compare(
        "mark-slips.txt",
        &["mark", &folder.display().to_string(), &sheet],
        Status::Wrong,
    );
    let outcome = course(&["mark", &folder.display().to_string(), &sheet]);
    for (name, _) in plain::slips::Slips::EACH {
        let line = format!("slip: {name}: line ");
        assert!(outcome.printed.contains(&line), "{name}");
    }
}

/// A path of eight hops is admitted where the free hop entries lie in runs of seven.
#[test]
fn the_fragmented_registry() {
    let folder = root().join("examples/fragmented");
    let word = folder.display().to_string();
    compare("bounds-fragmented.txt", &["bounds", &word], Status::Fine);
    let full = course(&["explain", &word, "--line", "171"]).printed;
    assert!(
        full.starts_with("line 171: 31 ") && full.contains("have 1,020 hop entries"),
        "{full}"
    );
    let again = course(&["explain", &word, "--line", "257"]).printed;
    assert!(again.starts_with("line 257: 0 place 1 "), "{again}");
    let read = |name: &str| fs::read(folder.join(name)).unwrap();
    let printed = plain::programs::admit(&read("table.txt"), &read("orders.txt"));
    assert!(printed == read("printed.txt"));
}

#[test]
fn every_command_of_the_sheets() {
    let made = root().join("course/tests/slips").display().to_string();
    compare(
        "explain-line.txt",
        &["explain", &made, "--line", "8"],
        Status::Fine,
    );
}
