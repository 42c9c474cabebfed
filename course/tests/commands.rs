//! The command line: help, version, usage, exit status, words on standard error.

mod common;

use common::{course, hall, hall_folder, honest, root, Temporary};
use course::session::walk_beside;
use course::status::Status;
use course::COMMANDS;
use std::fs;

#[test]
fn help_and_version_on_every_command() {
    for words in [&["--help"][..], &["--version"]] {
        assert_eq!(course(words).status, Status::Fine);
    }
    let all = course(&["--help"]).printed;
    assert!(all.contains("course traffic FOLDER --search"));
    for command in COMMANDS {
        for call in command.calls() {
            assert!(all.contains(&call), "{call}");
        }
        let help = course(&[command.name, "--help"]);
        assert_eq!(help.status, Status::Fine);
        assert!(help
            .printed
            .starts_with(&format!("usage: course {}", command.name)));
        let long = |line: &&str| line.chars().count() > 125;
        assert_eq!(help.printed.lines().find(long), None);
        let version = course(&[command.name, "--version"]);
        assert!(version.printed.starts_with("course 0."));
    }
}

#[test]
fn usage() {
    let hall = hall();
    let sheet = format!("{hall}/printed.txt");
    let wrong: [&[&str]; 19] = [
        &[],
        &["nothing"],
        &["check"],
        &["check", "a", "b"],
        &["check", &hall, "--line", "1"],
        &["explain", &hall, "--line"],
        &["explain", &hall, "--line", "x"],
        &["explain", &hall, "--line", "37"],
        &["bounds", &hall, "--after", "37"],
        &["handover"],
        &["handover", &hall, "--after", "37"],
        &["handover", &hall, "--line", "1"],
        &["mark", &hall],
        &["mark", &hall, "x", "--lines", "1"],
        &["mark", &hall, &sheet, "--lines", "5-3"],
        &["mark", &hall, &sheet, "--lines", "0-3"],
        &["mark", &hall, &sheet, "--lines", "30-37"],
        &["hall", "--seed", "1"],
        &["hall", "--out", "--seed", "1"],
    ];
    for words in wrong {
        let outcome = course(words);
        assert_eq!(outcome.status, Status::Usage, "{words:?}");
        assert!(
            outcome.printed.is_empty() && !outcome.errors.is_empty(),
            "{words:?}"
        );
    }
}

#[test]
fn unreadable_files() {
    let folder = Temporary::new();
    for command in ["explain", "bounds", "handover", "check"] {
        let outcome = course(&[command, &folder.word()]);
        assert_eq!(outcome.status, Status::Wrong);
        let told = outcome.errors + &outcome.printed;
        for file in ["table.txt", "orders.txt"] {
            assert!(
                told.contains(&format!("{file}: can't be read")),
                "{command}: {told}"
            );
        }
        assert!(told.contains("admit counts it as empty"));
    }
    let answers = course(&["mark", &hall(), "/nowhere/answers.txt"]);
    assert_eq!(answers.status, Status::Wrong);
}

#[test]
fn a_refused_batch_in_words() {
    let table = b"   1   1   2     0 1    250     4000\n";
    let folder = Temporary::with(table, b" 2     1\n");
    for command in ["explain", "bounds"] {
        let outcome = course(&[command, &folder.word()]);
        assert_eq!(outcome.status, Status::Wrong);
        assert!(outcome.printed.is_empty());
        let words = "table.txt:1:13: speed: 0 is out of range, 1 to 10,000";
        assert!(
            outcome.errors.contains("refused with 2"),
            "{}",
            outcome.errors
        );
        assert!(outcome.errors.contains(words), "{}", outcome.errors);
    }
}

#[test]
fn orders_that_are_too_many() {
    let folder = Temporary::with(b"", &b" 2     1\n".repeat(2_001));
    let outcome = course(&["bounds", &folder.word()]);
    assert_eq!(outcome.status, Status::Wrong);
    assert!(
        outcome
            .errors
            .contains("orders.txt: 2,001 lines, at most 2,000"),
        "{}",
        outcome.errors
    );
    assert_eq!(course(&["check", &folder.word()]).status, Status::Wrong);
}

/// Without the library it says so; with it, it doesn't.
#[test]
fn the_plain_version_alone_says_so() {
    let outcome = course(&["bounds", &hall()]);
    let said = outcome.errors.contains("the proved library isn't linked");
    assert_eq!(said, proved::BATCH.is_none());
    assert_eq!(proved::BATCH.is_some(), cfg!(feature = "proved"));
}

/// An answer on which the library and the plain version differ is an error.
#[test]
fn a_difference_is_an_error() {
    fn other(table: &[u8], orders: &[u8], answers: &mut [u8]) -> (u32, u32) {
        let outcome = honest(table, orders, answers);
        if let Some(last) = answers.iter_mut().rev().nth(1) {
            *last = b'7';
        }
        outcome
    }
    fn refusing(_: &[u8], _: &[u8], _: &mut [u8]) -> (u32, u32) {
        (1, 1)
    }
    let read = |name: &str| fs::read(root().join("examples/hall").join(name)).unwrap();
    let folder = hall_folder(&read("table.txt"), &read("orders.txt"));
    assert!(walk_beside(Some(honest), &folder, |_, _, _| {}).is_ok());
    for batch in [other as proved::Batch, refusing] {
        let failed = walk_beside(Some(batch), &folder, |_, _, _| {}).unwrap_err();
        assert_eq!(failed.status, Status::Wrong);
        assert!(failed.errors.contains("the plain version differ") && failed.printed.is_empty());
    }
    let refused = hall_folder(b"x\n", b"");
    let failed = walk_beside(Some(honest), &refused, |_, _, _| {}).unwrap_err();
    assert!(!failed.errors.contains("the plain version differ"));
}

/// Any number of a right sheet changed makes it wrong, and a row taken out too.
#[test]
fn a_changed_answer_fails() {
    let folder = Temporary::new();
    let stored = fs::read_to_string(root().join("examples/hall/printed.txt")).unwrap();
    let lines: Vec<&str> = stored.lines().collect();
    for (index, line) in lines.iter().enumerate() {
        let numbers: Vec<u64> = line
            .split_whitespace()
            .map(|word| word.parse().unwrap())
            .collect();
        for column in 1..5 {
            let mut changed = numbers.clone();
            changed[column] += 1;
            let row: Vec<String> = changed.iter().map(u64::to_string).collect();
            let mut rows: Vec<String> = lines.iter().map(|line| line.to_string()).collect();
            rows[index] = row.join(" ");
            let sheet = folder.write("sheet.txt", rows.join("\n").as_bytes());
            let outcome = course(&["mark", &hall(), &sheet]);
            assert_eq!(
                outcome.status,
                Status::Wrong,
                "line {} column {column}",
                index + 1
            );
            assert!(outcome.printed.contains("35 of 36 rows right"));
        }
    }
    let short = folder.write("short.txt", lines[..20].join("\n").as_bytes());
    assert_eq!(course(&["mark", &hall(), &short]).status, Status::Wrong);
    let part = course(&["mark", &hall(), &short, "--lines", "1-20"]);
    assert_eq!(part.status, Status::Fine);
}

/// A flow's number is a name: as it stands in orders.txt, and as SENDS takes it.
#[test]
fn flow_numbers_have_no_commas() {
    let orders = " 1 65535     1000    1542 1542    1000  1   1 1
 1 65535     1000    1542 1542    1000  1   1 1
 1 65534     1000    1542 1542    1000  1   1 1
 2 65533
";
    let table = b"   1   1   2   100 1    300     2000\n";
    let folder = Temporary::with(table, orders.as_bytes());
    for command in ["explain", "bounds"] {
        let printed = course(&[command, &folder.word()]).printed;
        assert!(
            printed.contains("65535") && !printed.contains("65,53"),
            "{printed}"
        );
    }
}

/// No order and no row: no wrong row.
#[test]
fn an_empty_hall_is_marked() {
    let folder = Temporary::with(b"", b"");
    let sheet = folder.write("sheet.txt", b"");
    let path = folder.0.display().to_string();
    assert_eq!(course(&["mark", &path, &sheet]).status, Status::Fine);
}

/// A worksheet's blanks are numbers that aren't given, and a row of blanks is none; a byte order mark and CR LF do no harm.
#[test]
fn worksheets_filled_in_part() {
    let folder = Temporary::new();
    let sheet = folder.write(
        "sheet.txt",
        "\u{feff}1 0 1 0 0 17 ________\r\n2 ___ ____ ____ __ ______ ________\r\n".as_bytes(),
    );
    let outcome = course(&["mark", &hall(), &sheet, "--lines", "1-2"]);
    assert_eq!(
        outcome.printed, "line 1: right\nline 2: wrong: no row\n1 of 2 rows right\n",
        "{}",
        outcome.errors
    );
    let half = folder.write("half.txt", b"1 0 1 __ 0\n");
    let outcome = course(&["mark", &hall(), &half]);
    assert!(
        outcome.errors.contains("half.txt:1:7: `__`"),
        "{}",
        outcome.errors
    );
}

#[test]
fn a_long_sheet_takes_seconds() {
    let folder = Temporary::new();
    let rows = 100_000;
    let text: String = (1..=rows).map(|line| format!("{line} 0 1 0 0\n")).collect();
    let sheet = folder.write("sheet.txt", text.as_bytes());
    let start = std::time::Instant::now();
    let outcome = course(&["mark", &hall(), &sheet]);
    assert!(outcome.printed.contains(" of 100,000 rows right"));
    let took = start.elapsed();
    assert!(took.as_secs() < 3, "{took:?}");
}

#[test]
fn unreadable_rows() {
    let folder = Temporary::new();
    let sheet = folder.write(
        "sheet.txt",
        b"1 0 1 0\n2 0 2 0 x\n3 0 1 0 0\n3 0 1 0 0\n4 0 1 0 0 1,23\n5 0 4 0 0 +21\n6\n",
    );
    let outcome = course(&["mark", &hall(), &sheet]);
    assert_eq!(outcome.status, Status::Wrong);
    for place in [
        "sheet.txt:1:1: ",
        "sheet.txt:2:9: `x`",
        "sheet.txt:4:1: ",
        "sheet.txt:5:11: `1,23`",
        "sheet.txt:6:11: `+21`",
        "sheet.txt:7:1: 1 number;",
    ] {
        assert!(
            outcome.errors.contains(place),
            "{place}: {}",
            outcome.errors
        );
    }
}

/// The same seed makes the same hall, its solution is right, and nothing is overwritten.
#[test]
fn made_halls() {
    let folder = Temporary::new();
    for seed in ["1", "2", "77"] {
        let out = folder.0.join(seed).display().to_string();
        assert_eq!(
            course(&["hall", "--seed", seed, "--out", &out]).status,
            Status::Fine
        );
        let again = course(&["hall", "--seed", seed, "--out", &out]);
        assert_eq!(again.status, Status::Wrong);
        assert!(again
            .errors
            .ends_with("table.txt: can't be written: File exists\n"));
        let other = folder.0.join(format!("{seed}-again")).display().to_string();
        assert_eq!(
            course(&["hall", "--seed", seed, "--out", &other]).status,
            Status::Fine
        );
        for file in [
            "table.txt",
            "orders.txt",
            "worksheet.txt",
            "solution/answers.txt",
            "solution/explained.txt",
        ] {
            let read = |out: &str| fs::read(format!("{out}/{file}")).unwrap();
            assert_eq!(read(&out), read(&other));
        }
        let answers = format!("{out}/solution/answers.txt");
        let marked = course(&["mark", &out, &answers]);
        assert_eq!(marked.status, Status::Fine, "{}", marked.printed);
        let sheet = fs::read_to_string(format!("{out}/worksheet.txt")).unwrap();
        assert!(sheet.contains("Exercise two"));
        assert_eq!(
            course(&["mark", &out, &format!("{out}/worksheet.txt")]).status,
            Status::Wrong
        );
    }
}
