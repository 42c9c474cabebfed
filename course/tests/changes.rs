//! W-206: what the commands say of changes, with sums by hand at 100 Mbit/s.

mod common;

use common::{course, example, said, Temporary};
use course::status::Status;
use std::fs;

const TABLE: &str = "   1   1   2   100 1    371     9000\n   2   2   3   100 1    500     1700\n";
/// Document 01's flow over both links: 1,542 + ceil(1,000 × 364 / 8000) = 1,588 bytes at the second.
const HELD: &str = " 1     7     1000    1542 1542    2000  2   1 1   2 1\n";

fn folder(change: &str) -> Temporary {
    Temporary::with(TABLE.as_bytes(), format!("{HELD}{change}\n").as_bytes())
}

/// What `explain` says of a change of the held flow.
fn explained(change: &str) -> String {
    let outcome = course(&["explain", &folder(change).word(), "--line", "2"]);
    assert_eq!(outcome.status, Status::Fine, "{}", outcome.errors);
    outcome.printed
}

fn has(printed: &str, lines: &[&str]) {
    for line in lines {
        assert!(
            printed.lines().any(|found| found == *line),
            "{line}\n{printed}"
        );
    }
}

/// Each typing mistake in a change by itself.
#[test]
fn typing_mistakes() {
    for (line, expected) in [
        (" 3     7     2000    3084", None),
        (
            " 3     7    2000    3084",
            Some("2:9: rate: 1 column too few before its number"),
        ),
        (
            " 3     7      2000    3084",
            Some("2:9: rate: 1 column too many before its number"),
        ),
        (
            " 3     7     2000   3084",
            Some("2:18: burst: 1 column too few before its number"),
        ),
        (
            " 3     7     2000    3084 ",
            Some("2:26: 1 column too many: the line has 26, 25 are right: a change ends with its burst"),
        ),
        (
            " 3     7     2000    3084 1542    2000  1   1 1",
            Some("2:26: 22 columns too many: the line has 47, 25 are right: a change ends with its burst"),
        ),
        (" 3     7", Some("2:9: rate: the line ends after 8 columns")),
        (
            " 2     7     2000    3084",
            Some("2:9: 17 columns too many: the line has 25, 8 are right: a release ends with its flow number"),
        ),
        (" 3     7     2,00    3084", Some("2:15: rate: a comma")),
        (
            " 3     7     2000      83",
            Some("2:18: burst: 83 is out of range, 84 to 1,000,000"),
        ),
        (" 3     7             3084", Some("2:9: rate: no number")),
        (
            " 3     7     2000    3084 2     7",
            Some("2:26: another line begins here: the LF before it is missing"),
        ),
    ] {
        let orders = format!("{HELD}{line}\n");
        let told = expected.map(|words| format!("orders.txt:{words}"));
        assert_eq!(
            said(TABLE.as_bytes(), orders.as_bytes()),
            Vec::from_iter(told),
            "{line}"
        );
    }
}

/// Rate alone: the burst at the second hop is 1,542 + ceil(2,000 × 364 / 8000) = 1,633 in place of 1,588.
#[test]
fn a_change_that_is_done() {
    let printed = explained(" 3     7     2000    1542");
    assert!(
        printed.starts_with("line 2: 0 place 1 (done)\n"),
        "{printed}"
    );
    has(
        &printed,
        &[
            "    change: flow number 7, rate 2,000 kbit/s, burst 1,542 bytes, over link 1 level 1, link 2 level 1",
            "    Changed: flow 7 keeps place 1, path, largest frame and deadline; it had rate 1,000 kbit/s and burst 1,542 bytes.",
            "    causes 10+ 11+ 13+ 17+ 21+ 22+ 23+",
            "      link 1 level 1: 1,542, in place of 1,542",
            "      link 2 level 1: 1,542 + ceil(2,000 × 364 / 8000) = 1,633, in place of 1,588",
            "      rates 2,000, below 100,000 kbit/s",
            "        backlog 1,633 + ceil(2,000 × 1,542 / 100,000) = 1,664 of 1,700 bytes",
        ],
    );
    assert!(
        !printed.contains("deadline of") && !printed.contains("thresholds 371"),
        "{printed}"
    );
}

#[test]
fn changes_that_are_refused() {
    let kept = "Flow 7 stays at place 1 as it was, with rate 1,000 kbit/s and burst 1,542 bytes.";
    for (change, first, why, causes) in [
        (
            " 3     7   100000    1542",
            "21 at link 1 (the link's rates would reach its speed)",
            "With this change the rates on link 1 sum to 100,000 kbit/s, which isn't below 100,000 kbit/s.",
            "10+ 11+ 13+ 17+ 21! 22. 23.",
        ),
        (
            " 3     7     1000    3100",
            "22 at link 1 level 1 (delay above the threshold)",
            "With this change a frame could stay 372 µs in the queue of link 1 level 1, above its threshold of 371 µs.",
            "10+ 11+ 13+ 17+ 21+ 22! 23.",
        ),
        (
            " 3     7     3000    1542",
            "23 at link 2 level 1 (backlog above the buffer)",
            "With this change the queue of link 2 level 1 could hold 1,726 bytes, above its buffer of 1,700 bytes.",
            "10+ 11+ 13+ 17+ 21+ 22+ 23!",
        ),
        (
            " 3     7     1000    1541",
            "17 (largest frame above burst)",
            "The new burst, 1,541 bytes, is below the held flow's largest frame, 1,542 bytes.",
            "10+ 11+ 13+ 17! 21. 22. 23.",
        ),
    ] {
        let printed = explained(change);
        assert!(printed.starts_with(&format!("line 2: {first}\n")), "{printed}");
        has(&printed, &[&format!("    {why} {kept}"), &format!("    causes {causes}")]);
    }
    let refused = explained(" 3     7     3000    1542");
    has(
        &refused,
        &["    bursts in link 2 level 1: flow 7 (this order) 1,679"],
    );
    let unknown = explained(" 3     8     1000    1542");
    has(
        &unknown,
        &[
            "    change: flow number 8, rate 1,000 kbit/s, burst 1,542 bytes",
            "    No held flow has the number 8: it was never admitted, or is released already.",
            "    causes 10+ 11+ 13! 17. 21. 22. 23.",
        ],
    );
}

/// The figures of the second link after a registration, a change that is done and one that is refused.
#[test]
fn bounds_after_changes() {
    let orders = format!("{HELD} 3     7     2000    1542\n 3     7     3000    1542\n");
    let folder = Temporary::with(TABLE.as_bytes(), orders.as_bytes());
    let row = |after: &str| {
        let printed = course(&["bounds", &folder.word(), "--after", after]).printed;
        let mut second = printed
            .lines()
            .skip_while(|line| !line.starts_with("link 2"));
        let row = second.nth(2).unwrap_or_default();
        row.split_whitespace()
            .map(str::to_string)
            .collect::<Vec<String>>()
    };
    let [registered, changed, refused] = ["1", "2", "3"].map(row);
    assert_eq!(registered[..4], ["1", "1,000", "1,588", "1,542"]);
    assert_eq!(changed[..4], ["1", "2,000", "1,633", "1,542"]);
    assert_eq!(refused, changed);
}

fn marked(folder: &Temporary, rows: &str) -> String {
    let sheet = folder.write("sheet.txt", rows.as_bytes());
    course(&["mark", &folder.word(), &sheet]).printed
}

/// Bounds at the last hop's queue, 8000 × (1,542 + 1,633) / 100,000 and 1,664; at the failing one where it is refused.
#[test]
fn changes_are_marked() {
    let done = folder(" 3     7     2000    1542");
    let right = "1 0 1 0 0 251 1604 254\n2 0 1 0 0 254 1664 254\n";
    assert!(marked(&done, right).ends_with("2 of 2 rows right\n"));
    let wrong = marked(&done, "1 0 1 0 0\n2 0 2 0 0 254 1604\n");
    assert!(
        wrong.contains("line 2: wrong: 0 place 1 (done), not 0 2 0 0; backlog 1,664, not 1,604\n"),
        "{wrong}"
    );
    let refused = folder(" 3     7     3000    1542");
    assert!(marked(&refused, "1 0 1 0 0\n2 23 0 2 1 258 1726\n").ends_with("2 of 2 rows right\n"));
    let slip = "; fits the slip: old share left on a change\n";
    for bounds in ["382 3268", "- 3268", "382", ""] {
        let told = marked(&done, &format!("1 0 1 0 0\n2 23 0 2 1 {bounds}\n"));
        assert!(told.contains(slip), "{bounds}: {told}");
    }
    // The old share is in both bounds: a right one contradicts the slip.
    for bounds in ["254 1664", "254", "382 1664"] {
        let told = marked(&done, &format!("1 0 1 0 0\n2 23 0 2 1 {bounds}\n"));
        assert!(!told.contains("slip"), "{bounds}: {told}");
    }
}

/// Who takes a refused change for done goes on by it: 500 + 99,500 aren't below 100,000, 500 + 1,000 are.
#[test]
fn a_row_after_a_wrong_change() {
    let orders = format!(
        "{HELD} 3     7    99500    1542\n 1     8      500     200  200    2000  1   1 1\n"
    );
    let folder = Temporary::with(TABLE.as_bytes(), orders.as_bytes());
    let told = marked(&folder, "1 0 1 0 0\n2 0 1 0 0\n3 21 0 1 0\n");
    assert!(
        told.contains(
            "line 3: wrong: 0 place 2 (done), not 21 0 1 0; right after your earlier rows\n"
        ),
        "{told}"
    );
}

/// Sources keep to the rate and burst that their flows have after all orders.
#[test]
fn traffic_goes_by_the_changed_flow() {
    let verdict = |change: &str, sends: &str| {
        let folder = folder(change);
        let sends = folder.write("sends.txt", sends.as_bytes());
        let outcome = course(&["traffic", &folder.word(), &sends]);
        (outcome.status, outcome.printed + &outcome.errors)
    };
    let two = "0 7 1542\n0 7 84\n";
    let (status, told) = verdict(" 3     7     1000    1542", two);
    assert_eq!(status, Status::Unconforming, "{told}");
    let (status, told) = verdict(" 3     7     1000    1626", two);
    assert_eq!(status, Status::Fine, "{told}");
    // 1,542 bytes at 2,000 kbit/s take 6,168 µs to earn, at 1,000 twice as long.
    let again = "0 7 1542\n6168 7 1542\n";
    assert_eq!(verdict(" 3     7     2000    1542", again).0, Status::Fine);
    assert_eq!(
        verdict(" 3     7     1000    1542", again).0,
        Status::Unconforming
    );
}

/// The sheets' questions on the hall's camera 203: the lines stand after those of the hall's orders.
#[test]
fn the_hall_of_the_sheets() {
    let read = |name: &str| fs::read_to_string(example(&format!("hall/{name}"))).unwrap();
    let answers = |more: &str| {
        let folder = Temporary::with(
            read("table.txt").as_bytes(),
            (read("orders.txt") + more).as_bytes(),
        );
        let printed = course(&["explain", &folder.word()]).printed;
        let lines = printed.lines().filter(|line| line.starts_with("line "));
        let words = lines.map(|line| line.split_once(": ").unwrap_or_default().1.to_string());
        words.skip(36).collect::<Vec<String>>()
    };
    let (done, above) = ("(done)", "(delay above the threshold)");
    // Rate alone.
    assert_eq!(
        answers(" 3   203    60511    6168\n"),
        [format!("22 at link 5 level 2 {above}")]
    );
    assert_eq!(
        answers(" 3   203    60510    6168\n"),
        [format!("0 place 6 {done}")]
    );
    // While 203 is held, 202 can't have more; once it is released it can, and 203 isn't admitted again, even as it was.
    let more = " 3   202    30000    9252\n";
    assert_eq!(answers(more), [format!("22 at link 3 level 2 {above}")]);
    let camera = read("orders.txt").lines().nth(15).unwrap().to_string() + "\n";
    assert_eq!(
        answers(&(" 2   203\n".to_string() + more + &camera)),
        [
            format!("0 place 6 {done}"),
            format!("0 place 2 {done}"),
            format!("22 at link 3 level 2 {above}")
        ]
    );
    // Released and registered again at once, it has another place.
    assert_eq!(
        answers(&(" 2   203\n".to_string() + &camera)),
        [format!("0 place 6 {done}"), format!("0 place 5 {done}")]
    );
}
