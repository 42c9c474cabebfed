//! `course wire` as it is called, up to the point where frames would be sent, and what it prints of a trial.

mod common;

use common::{course as call, example, hall, Temporary};
use course::folder::Folder;
use course::status::Status;
use course::traffic::hall::Hall;
use course::traffic::held;
use course::wire::report::Report;
use course::wire::run::Stay;
use course::wire::scale::Scale;
use course::wire::trial::Found;
use course::wire::verdict::{timing, Limit, Seen, Timing};

#[test]
fn usage() {
    let hall = hall();
    let wrong: [(&[&str], &str); 13] = [
        (&["wire"], "a word is missing"),
        (&["wire", &hall, "x"], "a word too many"),
        (&["wire", &hall, "--slow"], "--slow needs N"),
        (
            &["wire", &hall, "--slow", "x"],
            "--slow: `x` is no whole number",
        ),
        (
            &["wire", &hall, "--slow", "0"],
            "--slow goes from 1 to 10,000",
        ),
        (
            &["wire", &hall, "--slow", "10001"],
            "--slow goes from 1 to 10,000",
        ),
        (
            &["wire", &hall, "--slow", "7"],
            "--slow 7 leaves a link no whole number of bytes per second; 8 does",
        ),
        (
            &["wire", &hall, "--break", "203"],
            "--break 203: FLOW,COUNT is expected",
        ),
        (
            &["wire", &hall, "--break", "203,x"],
            "--break 203,x: FLOW,COUNT is expected",
        ),
        (
            &["wire", &hall, "--break", "203,-1"],
            "--break 203,-1: FLOW,COUNT is expected",
        ),
        (
            &["wire", &hall, "--break", "203,0"],
            "--break 203,0: COUNT goes from 1 to 10,000",
        ),
        (
            &["wire", &hall, "--break", "203,10001"],
            "COUNT goes from 1 to 10,000",
        ),
        // Line 21 releases it.
        (
            &["wire", &hall, "--break", "201,8"],
            "--break 201,8: flow 201 isn't held after the orders",
        ),
    ];
    for (words, said) in wrong {
        let outcome = call(words);
        assert_eq!(outcome.status, Status::Usage, "{words:?}");
        assert!(outcome.errors.contains(said), "{}", outcome.errors);
        assert_eq!(outcome.printed, "");
    }
}

#[test]
fn halls_that_cannot_be_sent() {
    let outcome = call(&["wire", "/nowhere"]);
    assert_eq!(outcome.status, Status::Wrong);
    assert!(outcome.errors.contains("table.txt: can't be read"));

    let level = |number: u64| format!("   1   1   2   100 {number}    400     2000\n");
    let table: String = (1..=4).map(level).collect();
    let orders = b" 1     7     1000    1542 1542     900  1   1 1\n";
    let four = Temporary::with(table.as_bytes(), orders);
    let outcome = call(&["wire", &four.word()]);
    assert_eq!(outcome.status, Status::Wrong);
    assert_eq!(
        outcome.errors,
        "course wire: link 1 has a level 4: the kernel's pfifo_fast has three bands, for levels 1 to 3\n"
    );

    let none = Temporary::with(level(1).as_bytes(), b"");
    let outcome = call(&["wire", &none.word()]);
    assert_eq!(outcome.status, Status::Wrong);
    assert_eq!(
        outcome.errors,
        "course wire: no flow is held after the orders: nothing can be sent\n"
    );

    let refused = Temporary::with(b"x\n", b"");
    let outcome = call(&["wire", &refused.word()]);
    assert_eq!(outcome.status, Status::Wrong);
    assert!(outcome.errors.contains("the batch is refused with 1"));
}

#[cfg(all(target_os = "linux", target_arch = "x86_64"))]
#[test]
fn a_missing_program_is_named() {
    use course::wire::kernel::namespace::Programs;
    let missing = |folders: &[std::path::PathBuf]| Programs::find_in(folders).err();
    let folder = Temporary::new();
    let folders = [folder.0.clone()];
    for name in ["ip", "tc"] {
        let said = format!(
            "the program `{name}` is missing; Debian and Ubuntu have it in the package iproute2"
        );
        assert_eq!(missing(&folders), Some(said));
        folder.write(name, b"");
    }
    assert_eq!(missing(&folders), None);
}

fn two_flows() -> Hall {
    held(&Folder::read(&example("two-flows")).ok().unwrap())
        .ok()
        .unwrap()
}

const SCALE: Scale = Scale { slow: 100 };

/// What was seen of a queue of two-flows after stays of so many tenths of a µs, each with what the machine may have added.
fn seen(hall: &Hall, queue: usize, stays: &[(u64, u64)]) -> Seen {
    let mut seen = Seen::default();
    for (number, &(tenths, added)) in (1..).zip(stays) {
        let stay = Stay {
            queue,
            flow: queue,
            number,
            length: 10_000 * tenths,
            added: 10_000 * added,
            late: 0,
            early: 0,
        };
        seen.note(&stay, SCALE.nanos(hall.queues[queue].threshold));
    }
    seen
}

const LIMIT: Limit = Limit {
    threshold: 0,
    early: 0,
    noise: 15_000,
    speed: 100_000,
    residual: 100_000,
};

fn printed(hall: &Hall, limits: [Limit; 2], seen: [Seen; 2]) -> String {
    let found = Found {
        limits: limits.to_vec(),
        seen: seen.to_vec(),
    };
    let report = Report {
        hall,
        scale: SCALE,
        found: &found,
    };
    format!(
        "{}{}{}\n",
        report.table(),
        report.remarks(),
        report.verdict()
    )
}

#[test]
fn the_table_of_a_trial() {
    let hall = two_flows();
    let level_1 = seen(&hall, 0, &[(2_467, 2), (2_469, 3), (1_234, 0)]);
    assert_eq!(
        printed(&hall, [LIMIT; 2], [level_1, Seen::default()]),
        "\
\x20 link  level  stays  longest stay  bound  of it  threshold  noise  verdict     worst frame
                                µs     µs      %         µs     µs
     1      1      3         246.9    371   66.6        371    0.2  in time  flow 7 frame 2
     1      2      0             -    374      -        374    0.2  in time               -
no frame late; closest link 1 level 1, 246.9 of 371 µs
"
    );
}

#[test]
fn late_and_unclear() {
    let hall = two_flows();
    let trial = |level_1, level_2| {
        let seen = [seen(&hall, 0, &[level_1]), seen(&hall, 1, &[level_2])];
        let timing = timing(&seen);
        (printed(&hall, [LIMIT; 2], seen), timing)
    };
    let (text, timing) = trial((3_710, 0), (3_740, 0));
    assert!(text.ends_with("\nno frame late; closest link 1 level 1, 371.0 of 371 µs\n"));
    assert_eq!((timing, timing.status()), (Timing::InTime, Status::Fine));
    let (text, timing) = trial((3_710, 0), (3_743, 3));
    let said = "\
link 1 level 2: above its bound by 0.3 µs; the machine may have added 0.3
nothing can be said: link 1 level 2, 374.3 of 374 µs, above by no more than this machine itself may have added; \
slower motion, or a machine that does nothing else, tells
";
    assert!(text.contains("unclear") && text.ends_with(said), "{text}");
    assert_eq!((timing, timing.status()), (Timing::Unclear, Status::Usage));
    // The late queue is named, though another is further above its threshold.
    let (text, timing) = trial((4_000, 300), (3_744, 3));
    let said = "\
link 1 level 1: above its bound by 29.0 µs; the machine may have added 30.0
link 1 level 2: above its bound by 0.4 µs; the machine may have added 0.3
a frame late: link 1 level 2, 374.4 of 374 µs; 1 late stay in all
";
    assert!(text.ends_with(said), "{text}");
    assert_eq!((timing, timing.status()), (Timing::Late, Status::Late));
}

#[test]
fn what_the_machine_may_add() {
    // The greater of noise and doubt, and the lag, by how little the levels above leave; what goes early beside it.
    let limit = Limit {
        early: 7_000,
        residual: 25_000,
        ..LIMIT
    };
    assert_eq!(limit.added(0, 0), 4 * 15_000 + 7_000);
    assert_eq!(limit.added(15_001, 0), 4 * 15_001 + 7_000);
    assert_eq!(limit.added(9_000, 1_000), 4 * 16_000 + 7_000);
    let thirds = Limit {
        residual: 30_000,
        ..limit
    };
    assert_eq!(thirds.added(0, 1), 50_004 + 7_000);
}

#[test]
fn queues_that_may_pass_their_bound_are_named() {
    let hall = two_flows();
    let early = Limit {
        early: 57_000,
        ..LIMIT
    };
    let text = printed(&hall, [early, LIMIT], [Seen::default(), Seen::default()]);
    let said = "\
link 1 level 1: the kernel lets go of small frames below it early; by that a stay may pass its bound, by 0.6 µs at most
no frame was sent
";
    assert!(text.ends_with(said), "{text}");
}
