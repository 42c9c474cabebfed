//! `course traffic` as it is called: what it prints and how it ends.

mod common;

use common::{course as call, example, Temporary};
use course::status::{Outcome, Status};

/// The words on standard error but for the remark on the proved library.
fn errors(outcome: &Outcome) -> String {
    let lines = outcome.errors.lines();
    let own = lines.filter(|line| !line.starts_with("course: the proved library isn't linked"));
    own.map(|line| format!("{line}\n")).collect()
}

/// The last line printed.
fn verdict(outcome: &Outcome) -> &str {
    outcome.printed.lines().last().unwrap_or_default()
}

fn ends(outcome: &Outcome, status: Status, verdict_line: &str) {
    assert_eq!(outcome.status, status, "{}", outcome.errors);
    assert_eq!(verdict(outcome), verdict_line);
}

#[test]
fn document_01s_two_flows() {
    let outcome = call(&[
        "traffic",
        &example("two-flows"),
        &example("two-flows/sends.txt"),
    ]);
    ends(
        &outcome,
        Status::Fine,
        "no frame late; closest link 1 level 1, 246 of 371 µs",
    );
    assert_eq!(
        outcome.printed,
        "\
2 frames of 2 flows; those of one instant: forwarded ones first
every source conforms

  link  level  longest stay  bound  threshold  greatest backlog  buffer                        worst frame
                         µs     µs         µs             bytes   bytes
     1      1           246    371        371             1,542   2,000  flow 7 frame 1, instants 1 to 247
     1      2           124    374        374             1,542   2,000  flow 8 frame 1, instants 0 to 124

no frame late; closest link 1 level 1, 246 of 371 µs
"
    );
}

#[test]
fn a_bucket_met_exactly_and_one_micros_less() {
    let folder = Temporary::new();
    let two = example("two-flows");
    let exact = folder.write("exact", b"0 8 1542\n1 7 1542\n12337 7 1542\n");
    let verdict = "no frame late; closest link 1 level 1, 246 of 371 µs";
    ends(&call(&["traffic", &two, &exact]), Status::Fine, verdict);
    let early = folder.write("early", b"0 8 1542\n1 7 1542\n12336 7 1542\n");
    let outcome = call(&["traffic", &two, &early]);
    assert_eq!(
        (outcome.status, outcome.printed.as_str()),
        (Status::Unconforming, "")
    );
    let expected = format!(
        "line 3: flow 7, instants 1 to 12,336: 24,672,000 above 24,671,000; may go at 12,337\n\
         {early}: not sent: a source doesn't conform; --anyway sends it\n"
    );
    assert_eq!(errors(&outcome), expected);
    let anyway = call(&["traffic", &two, &early, "--anyway"]);
    ends(&anyway, Status::Fine, verdict);
    assert!(anyway
        .printed
        .contains("the promise doesn't speak of this run"));
}

#[test]
fn the_halls_schedules() {
    let hall = example("hall");
    let sent = call(&["traffic", &hall, &example("hall/sends.txt")]);
    ends(
        &sent,
        Status::Fine,
        "no frame late; closest link 4 level 2, 480 of 1,000 µs",
    );
    let greedy = call(&["traffic", &hall, &example("hall/greedy.txt")]);
    ends(
        &greedy,
        Status::Fine,
        "no frame late; closest link 3 level 1, 123 of 250 µs",
    );
    assert!(
        greedy.printed.starts_with("248 frames of 5 flows;"),
        "{}",
        greedy.printed
    );
    let breaking = call(&["traffic", &hall, &example("hall/breaking.txt")]);
    assert_eq!(breaking.status, Status::Unconforming);
    let found = errors(&breaking);
    let lines: Vec<&str> = found.lines().take(3).collect();
    assert_eq!(
        lines,
        [
            "line 2: flow 101, instants 0 to 0: 3,200,000 above 1,600,000; may go at 2,000",
            "line 4: flow 203, instants 0 to 2,467: 98,688,000 above 98,684,000; may go at 2,468",
            "line 5: flow 402: a frame of 100 bytes; its frames have 84 to 84",
        ]
    );
}

#[test]
fn a_doubled_burst_makes_a_frame_late() {
    let (shared, doubled) = (example("shared"), example("shared/doubled.txt"));
    let outcome = call(&["traffic", &shared, &doubled]);
    assert_eq!(outcome.status, Status::Unconforming);
    let outcome = call(&["traffic", &shared, &doubled, "--anyway"]);
    let words = "a frame late: link 1 level 1, 187 of 164 µs; 3 late stays in all; \
                 buffer exceeded at link 1 level 1, 800 of 433 bytes";
    ends(&outcome, Status::Late, words);
    assert!(outcome
        .printed
        .contains("a source doesn't conform: the promise doesn't speak of this run"));
}

/// The order in which one instant's arrivals are appended decides which frame of a level goes first.
#[test]
fn arrivals_have_an_order() {
    let folder = Temporary::new();
    let hall = example("hall");
    // 202's frame reaches link 3 level 2 at instant 124, just when 203's source adds one there.
    let sends = folder.write("sends", b"0 202 1542\n124 203 1542\n");
    let worst = |order: &str| {
        let outcome = call(&["traffic", &hall, &sends, "--arrivals", order]);
        assert_eq!(outcome.status, Status::Fine);
        let mut lines = outcome.printed.lines();
        let row = lines.find(|line| line.starts_with("     3      2 "));
        row.unwrap().to_string()
    };
    assert!(worst("first").ends_with("flow 203 frame 1, instants 124 to 371"));
    assert!(worst("last").ends_with("flow 202 frame 1, instants 124 to 371"));
    let drawn: Vec<String> = (1..20).map(|seed| worst(&seed.to_string())).collect();
    for flow in ["flow 202 frame 1", "flow 203 frame 1"] {
        assert!(drawn.iter().any(|row| row.contains(flow)), "{flow}");
    }
    let wrong = call(&["traffic", &hall, &sends, "--arrivals", "middle"]);
    assert_eq!(wrong.status, Status::Usage);
}

#[test]
fn what_cannot_be_read_is_named() {
    let folder = Temporary::new();
    let two = example("two-flows");
    let sends = folder.write("sends", b"0 8 1542\n1 9 1542\n");
    let outcome = call(&["traffic", &two, &sends]);
    assert_eq!(outcome.status, Status::Wrong);
    assert_eq!(
        outcome.errors,
        format!("{sends}:2:3: flow 9 isn't held after the orders\n")
    );
    let missing = folder.0.join("none").display().to_string();
    let outcome = call(&["traffic", &two, &missing]);
    assert_eq!(outcome.status, Status::Wrong);
    assert!(
        outcome
            .errors
            .starts_with(&format!("{missing}: can't be read")),
        "{}",
        outcome.errors
    );
    let nowhere = folder.0.join("none/trace.tsv").display().to_string();
    let sends = example("two-flows/sends.txt");
    for option in ["--trace", "--page"] {
        let outcome = call(&["traffic", &two, &sends, option, &nowhere]);
        assert_eq!(outcome.status, Status::Wrong);
        assert!(outcome
            .errors
            .contains(&format!("{nowhere}: can't be written")));
    }
    folder.write("table.txt", b"   1   1   1   100 1    371     2000\n");
    folder.write("orders.txt", b"");
    let outcome = call(&["traffic", &folder.word(), &sends]);
    assert_eq!(
        (outcome.status, outcome.printed.as_str()),
        (Status::Wrong, "")
    );
}

#[test]
fn misuse_ends_with_2() {
    let (two, sends) = (example("two-flows"), example("two-flows/sends.txt"));
    let misused: [&[&str]; 12] = [
        &[&two],
        &[&two, "--search", "--tries", "0"],
        &[&two, "--search", "--seconds", "0"],
        &[&two, &sends, "--page", "--anyway"],
        &[&two, &sends, "--search"],
        &[&two, &sends, "--seconds", "3"],
        &[&two, &sends, "--from", "3"],
        &[&two, "--search", "--anyway"],
        &[&two, "--search", "--queue", "1.3"],
        &[
            &two,
            &sends,
            "--page",
            "/tmp/x.html",
            "--from",
            "9",
            "--to",
            "9",
        ],
        &[&two, "--search", "--tries", "many"],
        &[
            &two,
            &sends,
            "--page",
            "/tmp/x.html",
            "--to",
            "18446744073709551615",
        ],
    ];
    for words in misused {
        let outcome = call(&[&["traffic"], words].concat());
        assert_eq!(
            outcome.status,
            Status::Usage,
            "{words:?}: {}",
            outcome.errors
        );
    }
    let help = call(&["traffic", "--help"]);
    assert!(help.status == Status::Fine && help.printed.contains("greedy FLOW from INSTANT"));
    assert!(call(&["traffic", "--version"])
        .printed
        .starts_with("course "));
}

/// What is misused is told before anything is written.
#[test]
fn a_stretch_the_wrong_way_round_writes_nothing() {
    let (two, sends) = (example("two-flows"), example("two-flows/sends.txt"));
    let folder = Temporary::new();
    let (trace, page) = (folder.0.join("trace.tsv"), folder.0.join("page.html"));
    let (written, drawn) = (trace.display().to_string(), page.display().to_string());
    let words = [
        "traffic", &two, &sends, "--trace", &written, "--page", &drawn,
    ];
    let outcome = call(&[&words[..], &["--from", "9", "--to", "3"]].concat());
    assert_eq!(outcome.status, Status::Usage);
    assert!(!trace.exists() && !page.exists());
}

/// 10 s of hall time with 100,000 frames, each over three hops. The bar is generous:
/// the machine may do other work.
#[test]
fn a_long_run_takes_seconds() {
    let folder = Temporary::new();
    let sends = folder.write(
        "sends",
        b"0 202 250 x 50000 every 200\n0 203 250 x 50000 every 200\n",
    );
    let trace = folder.0.join("trace.tsv").display().to_string();
    let start = std::time::Instant::now();
    let outcome = call(&["traffic", &example("hall"), &sends, "--trace", &trace]);
    let took = start.elapsed();
    assert_eq!(outcome.status, Status::Fine, "{}", outcome.errors);
    assert!(outcome.printed.starts_with("100,000 frames of 2 flows;"));
    assert_eq!(
        std::fs::read_to_string(&trace).unwrap().lines().count(),
        300_001
    );
    assert!(took.as_secs() < 10, "{took:?}");
}
