//! The shortest sending time in a burst's growth: the hand sums in `explain` and `bounds`, what they decide, and the slip of
//! counting whole thresholds.

mod common;

use common::{course, example, Temporary};
use course::numbers::commas;
use course::status::Status;

/// Document 01's flow over links in a row with one level each, of these speeds, thresholds and buffers.
fn row_of(links: &[(u64, u64, u64)]) -> Temporary {
    let line = |(index, (speed, threshold, buffer)): (usize, &(u64, u64, u64))| {
        let link = index + 1;
        format!(
            "{link:>4}{link:>4}{:>4}{speed:>6} 1{threshold:>7}{buffer:>9}\n",
            link + 1
        )
    };
    let table: String = links.iter().enumerate().map(line).collect();
    let thresholds: u64 = links.iter().map(|link| link.1).sum();
    let hops: String = (1..=links.len())
        .map(|link| format!("{link:>4} 1"))
        .collect();
    let order = format!(
        " 1     7     1000    1542 1542{thresholds:>8}{:>3}{hops}\n",
        links.len()
    );
    Temporary::with(table.as_bytes(), order.as_bytes())
}

/// What `explain` prints for the flow over links of these speeds and thresholds.
fn explained(links: &[(u64, u64)]) -> String {
    let links: Vec<(u64, u64, u64)> = links.iter().map(|&(c, t)| (c, t, 9_000)).collect();
    course(&["explain", &row_of(&links).word()]).printed
}

fn has_lines(printed: &str, lines: &[&str]) {
    for line in lines {
        assert!(
            printed.lines().any(|known| known == *line),
            "{line}: {printed}"
        );
    }
}

/// W-208's hand sums, 1,588 and 1,633, with their parts; the deadline keeps whole thresholds.
#[test]
fn hand_sums() {
    let printed = explained(&[(100, 371); 3]);
    has_lines(
        &printed,
        &[
            "line 1: 0 place 1 (done)",
            "    thresholds 371 + 371 + 371 = 1,113 of 1,113 µs",
            "      672 bits at 100 Mbit/s: 6.72, so 7 µs",
            "      link 1 level 1: 371 − 7 = 364",
            "      link 2 level 1: 371 − 7 = 364, S 364 + 364 = 728",
            "      link 1 level 1: 1,542",
            "      link 2 level 1: 1,542 + ceil(1,000 × 364 / 8000) = 1,588",
            "      link 3 level 1: 1,542 + ceil(1,000 × 728 / 8000) = 1,633",
        ],
    );
    // Told once, and of no hop that none comes after.
    for once in ["shortest sending time: ", "672 bits at ", "parts of S: "] {
        assert_eq!(printed.matches(once).count(), 1, "{once}: {printed}");
    }
    assert!(!printed.contains("link 3 level 1: 371"), "{printed}");
    let alone = explained(&[(100, 371)]);
    assert!(
        !alone.contains("672") && !alone.contains("parts of S"),
        "{alone}"
    );
}

/// The first link's speed and threshold; what 672 bits take there, exactly and in whole µs; its part of S, and the burst at
/// the second link. 375 and 376 tell 7 µs from 6 and from 8.
const FIRST_LINKS: [(u64, u64, &str, u64, u64, &str); 6] = [
    (100, 375, "6.72, so ", 7, 368, "1,588"),
    (100, 376, "6.72, so ", 7, 369, "1,589"),
    (10, 371, "67.2, so ", 68, 303, "1,580"),
    (96, 371, "", 7, 364, "1,588"),
    (13, 371, "51.6923.., so ", 52, 319, "1,582"),
    (10_000, 371, "0.0672, so ", 1, 370, "1,589"),
];

/// The speed is the earlier hop's: the second link has another.
#[test]
fn the_sending_time_is_the_earlier_links() {
    for (speed, threshold, exact, sending, part, burst) in FIRST_LINKS {
        let speed_shown = commas(speed);
        has_lines(
            &explained(&[(speed, threshold), (1_000, 371)]),
            &[
                &format!("      672 bits at {speed_shown} Mbit/s: {exact}{sending} µs"),
                &format!("      link 1 level 1: {threshold} − {sending} = {part}"),
                &format!("      link 2 level 1: 1,542 + ceil(1,000 × {part} / 8000) = {burst}"),
            ],
        );
    }
}

/// Such a queue refuses its flow, so this is seen in the sums alone.
#[test]
fn no_part_is_below_zero() {
    has_lines(
        &explained(&[(100, 6), (100, 371), (100, 371)]),
        &[
            "      link 1 level 1: 6 − 7 is below zero: 0",
            "      link 2 level 1: 371 − 7 = 364, S 0 + 364 = 364",
            "      link 2 level 1: 1,542",
            "      link 3 level 1: 1,542 + ceil(1,000 × 364 / 8000) = 1,588",
        ],
    );
}

/// Each speed of a path once, in the order of its hops.
#[test]
fn each_speed_has_its_sum_once() {
    let printed = explained(&[(100, 371), (1_000, 371), (100, 371), (1_000, 371)]);
    let sums: Vec<&str> = printed
        .lines()
        .filter(|line| line.contains("672 bits"))
        .collect();
    assert_eq!(
        sums,
        [
            "      672 bits at 100 Mbit/s: 6.72, so 7 µs",
            "      672 bits at 1,000 Mbit/s: 0.672, so 1 µs",
        ]
    );
    has_lines(
        &printed,
        &["      link 3 level 1: 371 − 7 = 364, S 734 + 364 = 1,098"],
    );
}

/// Three links whose last buffer is the backlog by W-208: 1,633 + ceil(15.42). By whole thresholds it would be 1,651.
fn tight() -> Temporary {
    row_of(&[(100, 371, 9_000), (100, 371, 9_000), (100, 371, 1_649)])
}

/// A buffer and a delay that whole thresholds would not keep within.
#[test]
fn a_flow_is_admitted_that_whole_thresholds_refuse() {
    let printed = course(&["explain", &tight().word()]).printed;
    has_lines(
        &printed,
        &[
            "line 1: 0 place 1 (done)",
            "        delay ceil(8000 × (1,542 + 1,633) / 100,000) = 254 of 371 µs",
            "        backlog 1,633 + ceil(1,000 × 1,542 / 100,000) = 1,649 of 1,649 bytes",
        ],
    );
    let less = row_of(&[(100, 371, 9_000), (100, 371, 9_000), (100, 371, 1_648)]);
    let printed = course(&["explain", &less.word()]).printed;
    has_lines(
        &printed,
        &["line 1: 23 at link 3 level 1 (backlog above the buffer)"],
    );
    // (1,542 + 1,633) × 0.08 is 254 to the byte; with 1,635 it is 254.16.
    let limits = [(100, 371), (100, 371), (100, 254)];
    assert!(explained(&limits).starts_with("line 1: 0 place 1 (done)\n"));
}

/// The bursts that `bounds` and the run's bounds are made of.
#[test]
fn bounds_have_the_hand_sums() {
    let folder = tight();
    let printed = course(&["bounds", &folder.word()]).printed;
    let rows = printed
        .lines()
        .filter(|line| line.starts_with("      1  1,000  "));
    let bursts: Vec<&str> = rows
        .filter_map(|row| row.split_whitespace().nth(2))
        .collect();
    assert_eq!(bursts, ["1,542", "1,588", "1,633"], "{printed}");
    let sends = folder.write("sends.txt", b"0 7 1542\n");
    let run = course(&["traffic", &folder.word(), &sends]).printed;
    let row = run.lines().find(|line| line.starts_with("     3      1 "));
    let words: Vec<&str> = row.unwrap().split_whitespace().collect();
    assert_eq!(words[2..5], ["124", "254", "371"], "{run}");
}

/// The sheets say of the shared link that every threshold and buffer is the very bound, and every deadline the sum.
#[test]
fn the_shared_link_has_nothing_to_spare() {
    let printed = course(&["bounds", &example("shared")]).printed;
    let (queues, flows) = printed.split_once("\nflows, ").unwrap();
    assert_eq!(queues.matches("  100.0").count(), 2 * 7, "{printed}");
    assert_eq!(flows.matches("  100.0\n").count(), 5, "{printed}");
}

/// What `mark` says of one row on the tight hall.
fn marked(row: &str) -> String {
    let folder = tight();
    let sheet = folder.write("sheet.txt", row.as_bytes());
    course(&["mark", &folder.word(), &sheet]).printed
}

/// Whole thresholds, 1,635, and rounding at each hop, 1,634, give the same delay; the backlog tells them apart.
#[test]
fn whole_thresholds_are_told() {
    let whole = "; fits the slip: whole thresholds\n";
    for (row, words) in [
        ("1 0 1 0 0 254 1649\n", "line 1: right\n"),
        ("1 23 0 3 1 255 1651\n", whole),
        ("1 23 0 3 1 - 1651\n", whole),
        (
            "1 23 0 3 1 255 1650\n",
            "; fits the slip: rounding at each hop\n",
        ),
        (
            "1 23 0 3 1 255\n",
            "; fits the slip: rounding at each hop, or whole thresholds\n",
        ),
        (
            "1 0 1 0 0 247 1558\n",
            "; fits the slip: source's burst at every hop\n",
        ),
    ] {
        let marked = marked(row);
        assert!(marked.contains(words), "{row}: {marked}");
    }
    // The right bounds contradict it: with whole thresholds they would be others.
    let contradicted = marked("1 23 0 3 1 254 1649\n");
    assert!(!contradicted.contains("whole"), "{contradicted}");
    let summary = marked("1 23 0 3 1 255 1651\n");
    assert!(
        summary.ends_with("slip: whole thresholds: line 1\n"),
        "{summary}"
    );
}

/// A path of eight hops: the eighth burst is 7 × 7 µs' worth smaller, and the row that whole thresholds give is named.
#[test]
fn the_eighth_hop() {
    let folder = row_of(&[(100, 371, 9_000); 8]);
    let printed = course(&["explain", &folder.word()]).printed;
    // 7 × 364 = 2,548; whole thresholds sum to 2,597 and give 1,867.
    has_lines(
        &printed,
        &["      link 8 level 1: 1,542 + ceil(1,000 × 2,548 / 8000) = 1,861"],
    );
    let sheet = folder.write("sheet.txt", b"1 0 1 0 0 273 1883\n");
    let marked = course(&["mark", &folder.word(), &sheet]).printed;
    let words = "line 1: wrong: backlog 1,877, not 1,883; fits the slip: whole thresholds\n";
    assert!(marked.starts_with(words), "{marked}");
}

/// Why the rest alone counts: smallest frames stay as long on each link as 672 bits take there, and none a shorter time.
#[test]
fn no_stay_is_shorter() {
    let folder = row_of(&[(100, 371, 9_000), (10, 3_000, 9_000), (1_000, 371, 9_000)]);
    let sends = folder.write("sends.txt", b"0 7 84 x 5\n900 7 84\n");
    let trace = folder.0.join("trace.tsv").display().to_string();
    let outcome = course(&["traffic", &folder.word(), &sends, "--trace", &trace]);
    assert_eq!(outcome.status, Status::Fine, "{}", outcome.errors);
    let trace = std::fs::read_to_string(trace).unwrap();
    let mut shortest = [u64::MAX; 3];
    for line in trace.lines().skip(1) {
        let words: Vec<&str> = line.split('\t').collect();
        let (link, stay): (usize, u64) = (words[2].parse().unwrap(), words[8].parse().unwrap());
        shortest[link - 1] = shortest[link - 1].min(stay);
    }
    assert_eq!(shortest, [7, 68, 1]);
}
