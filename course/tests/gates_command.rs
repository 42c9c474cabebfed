//! `course traffic --gates` as it is called.

mod common;

use common::pages::{check, made};
use common::{course as call, example, Temporary};
use course::status::{Outcome, Status};

/// SENDS put on an example behind gates.
fn gated(hall: &str, sends: &str) -> Outcome {
    let folder = Temporary::new();
    let sends = folder.write("sends.txt", sends.as_bytes());
    call(&["traffic", &example(hall), &sends, "--gates"])
}

/// The rows of the gates: flow, offered, passed, dropped and refused.
fn counts(outcome: &Outcome) -> Vec<Vec<u64>> {
    let rows = outcome.printed.lines().skip(2);
    let rows = rows.take_while(|line| line.starts_with("  "));
    let number = |word: &str| word.replace(',', "").parse().unwrap();
    rows.map(|row| row.split_whitespace().map(number).collect())
        .collect()
}

const CONFORMS: &str = "\nevery source conforms behind its gate\n";

/// With --anyway the same sends end with 4.
#[test]
fn a_doubled_burst_behind_its_gate() {
    let doubled = example("shared/doubled.txt");
    let words = ["traffic", &example("shared"), &doubled];
    let with = |option| call(&[&words[..], &[option]].concat());
    assert_eq!(with("--anyway").status, Status::Late);
    let outcome = with("--gates");
    assert_eq!(outcome.status, Status::Fine, "{}", outcome.errors);
    assert_eq!(counts(&outcome), [[11, 8, 4, 4, 0], [21, 1, 1, 0, 0]]);
    for words in [
        "\nline 3: flow 11, instant 1: dropped (1): 8000 × 100 = 800,000 above 0 tokens; \
         such a frame passes from 401 on, if no other does before\n",
        "\n5 frames of 2 flows, of 9 offered to gates; those of one instant: forwarded ones first\n",
        CONFORMS,
        "\nno frame late; closest link 1 level 1, 155 of 164 µs\n",
    ] {
        assert!(outcome.printed.contains(words), "{}", outcome.printed);
    }
}

/// The sheet's three ways to send again: at 400, at 401, and after a drop in between.
#[test]
fn the_sheets_next_frame() {
    let first = "1 11 100 x 4\n";
    for (further, row) in [
        ("400 11 100\n", [11, 5, 4, 1, 0]),
        ("401 11 100\n", [11, 5, 5, 0, 0]),
        (
            "100 11 100\n250 11 84\n400 11 100\n401 11 100\n",
            [11, 8, 5, 3, 0],
        ),
        ("400 11 101\n400 11 83\n401 11 100\n", [11, 7, 5, 0, 2]),
    ] {
        let outcome = gated("shared", &format!("{first}{further}"));
        assert_eq!(outcome.status, Status::Fine, "{}", outcome.errors);
        assert_eq!(counts(&outcome), [row], "{further}");
        assert!(outcome.printed.contains(CONFORMS));
    }
}

/// Frames of one instant are offered in the order of the lines.
#[test]
fn one_instants_frames_in_the_order_of_the_lines() {
    let outcome = gated("shared", "5 11 84 x 2\n0 12 100\n5 11 100 x 3\n5 11 84\n");
    assert_eq!(counts(&outcome), [[11, 6, 4, 2, 0], [12, 1, 1, 0, 0]]);
    // 2 × 84 + 2 × 100 are taken: 32 bytes are left, too few for the third of line 3 and for line 4.
    let words =
        "\nline 3: flow 11, instant 5: dropped (1): 8000 × 100 = 800,000 above 256,000 tokens; \
                 such a frame passes from 277 on,";
    assert!(outcome.printed.contains(words), "{}", outcome.printed);
}

#[test]
fn the_clock_rolls_over_within_sends() {
    let sends = "4294967000 11 100 x 5\n4294967399 11 100\n4294967400 11 100\n";
    let outcome = gated("shared", sends);
    assert_eq!(counts(&outcome), [[11, 7, 5, 2, 0]]);
    assert!(outcome.printed.contains("passes from 4,294,967,400 on"));
    assert!(!outcome.printed.contains("missed"));
    // Two turns later the clock shows what it showed before.
    let outcome = gated(
        "shared",
        "500 11 100 x 4\n8589935491 11 100\n8589935492 11 100\n",
    );
    assert_eq!(counts(&outcome), [[11, 6, 5, 1, 0]]);
    let words = "above 798,000 tokens; such a frame passes from 8,589,935,492 on, if no other does before; \
                 since it was last full the gate missed 2 turns of the clock, 4,294,967,296 µs each\n";
    assert!(outcome.printed.contains(words), "{}", outcome.printed);
}

/// What conforms passes whole: the run is the same as without gates.
#[test]
fn conforming_sends_pass_whole() {
    for (hall, sends) in [
        ("hall", "hall/sends.txt"),
        ("hall", "hall/greedy.txt"),
        ("hall", "hall/laptop.txt"),
        ("shared", "shared/near-1.txt"),
        ("shared", "shared/near-2.txt"),
        ("two-flows", "two-flows/sends.txt"),
    ] {
        let words = ["traffic", &example(hall), &example(sends)];
        let (plain, outcome) = (call(&words), call(&[&words[..], &["--gates"]].concat()));
        assert_eq!(outcome.status, Status::Fine, "{}", outcome.errors);
        for row in counts(&outcome) {
            assert_eq!(row[2..], [row[1], 0, 0], "{sends}");
        }
        let run = |outcome: &Outcome| {
            let (_, run) = outcome.printed.split_once("\n\n  link").unwrap();
            run.to_string()
        };
        assert_eq!(run(&outcome), run(&plain), "{sends}");
    }
    let none = gated("shared", "# nothing\n");
    assert_eq!(none.status, Status::Fine);
    assert!(none.printed.ends_with("\nno flow's frame sent\n"));
}

/// A laptop has no gate: one that the table doesn't allow still ends with 3, and nothing is sent.
#[test]
fn a_laptop_has_no_gate() {
    let folder = Temporary::new();
    let sends = folder.write("sends.txt", b"0 7 1542 x 2\nlaptop 1 0.999 9000\n");
    let outcome = call(&["traffic", &example("two-flows"), &sends, "--gates"]);
    assert_eq!(
        (outcome.status, outcome.printed.as_str()),
        (Status::Unconforming, "")
    );
    let words =
        format!("{sends}: not sent: a source doesn't conform; no gate stands before a laptop\n");
    assert!(outcome.errors.ends_with(&words), "{}", outcome.errors);
    assert!(!outcome.errors.contains("flow 7"));
    let allowed = gated("hall", "0 101 200 x 2\nlaptop 5 99.999 1542\n");
    assert_eq!(allowed.status, Status::Fine, "{}", allowed.errors);
    let words = "\n1 frame of 1 flow, of 2 offered to gates, 1 laptop's frame; those";
    assert!(allowed.printed.contains(words), "{}", allowed.printed);
}

#[test]
fn what_goes_with_gates() {
    for options in [&["--gates"][..], &["--gates", "--arrivals", "7"]] {
        let drawn = made("shared", "shared/doubled.txt", options, Status::Fine);
        check(&drawn);
        assert!(drawn
            .page
            .contains("Every source conforms behind its gate."));
        assert!(drawn
            .page
            .contains("5 frames of 2 flows, of 9 offered to gates;"));
    }
    let (shared, doubled) = (example("shared"), example("shared/doubled.txt"));
    for (words, said) in [
        (
            &[&shared, &doubled, "--gates", "--anyway"][..],
            "--anyway sends what --gates holds back: one of them at a time",
        ),
        (&[&shared, "--search", "--gates"], "--gates goes with SENDS"),
    ] {
        let outcome = call(&[&["traffic"], words].concat());
        assert_eq!(outcome.status, Status::Usage);
        let said = format!("course traffic: {said}\nusage: ");
        assert!(outcome.errors.starts_with(&said), "{}", outcome.errors);
    }
}
