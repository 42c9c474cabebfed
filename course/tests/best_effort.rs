//! Best-effort frames in the sums, in the bounds, in made halls and among the slips.

mod common;

use common::{course, hall_folder, Temporary};
use course::hall::make;
use course::numbers::commas;
use course::session::Session;
use course::status::Status;
use plain::formula::{backlog, delay, Aggregate, Link};
use plain::table::{read_table, write_queue, Queue};
use std::fs;

/// Document 01's flow, and one more on level 2, on a link of 100 Mbit/s with this best-effort frame.
fn two_flows(frame: u64, limits: [(u64, u64); 2]) -> Temporary {
    let line = |(index, (threshold, buffer)): (usize, (u64, u64))| {
        write_queue(&Queue {
            link: 1,
            from: 1,
            to: 2,
            speed: 100,
            level: index as u64 + 1,
            threshold,
            buffer,
            fixed_delay: 0,
            best_effort_frame: frame,
        })
    };
    let table: Vec<u8> = limits.into_iter().enumerate().flat_map(line).collect();
    let order = |flow: u64, level: u64| {
        format!(" 1{flow:>6}     1000    1542 1542    2000  1   1{level:>2}\n")
    };
    Temporary::with(&table, (order(7, 1) + &order(8, 2)).as_bytes())
}

/// W-202's hand sums, 371 and 1,573, then 499 and 1,589: these limits pass, and each one less is refused.
#[test]
fn hand_sums() {
    let codes = |frame, limits| {
        let printed = course(&["explain", &two_flows(frame, limits).word()]).printed;
        let words = |line: &str| Some(line.strip_prefix("line ")?.split_once(": ")?.1.to_string());
        let answers = printed.lines().filter_map(words);
        answers
            .map(|words| words.split(" (").next().unwrap().to_string())
            .collect::<Vec<String>>()
    };
    let (first, second) = ((371, 1_573), (499, 1_589));
    assert_eq!(codes(1_542, [first, second]), ["0 place 1", "0 place 2"]);
    for (limits, answers) in [
        (
            [(370, 1_573), second],
            ["22 at link 1 level 1", "0 place 1"],
        ),
        (
            [(371, 1_572), second],
            ["23 at link 1 level 1", "0 place 1"],
        ),
        ([first, (498, 1_589)], ["0 place 1", "22 at link 1 level 2"]),
        ([first, (499, 1_588)], ["0 place 1", "23 at link 1 level 2"]),
    ] {
        assert_eq!(codes(1_542, limits), answers, "{limits:?}");
    }
    // Without a laptop 247 and 374 do.
    assert_eq!(codes(0, [(247, 2_000), (374, 2_000)])[0], "0 place 1");
}

/// The sums name both frames and which of them blocks, at the last level too; a link without laptops has none of it.
#[test]
fn explained_as_on_paper() {
    let loose = [(1_000, 9_000), (1_000, 9_000)];
    for (frame, first, last) in [
        (1_000, "the frame below", "the best-effort frame"),
        (1_542, "both alike", "the best-effort frame"),
    ] {
        let printed = course(&["explain", &two_flows(frame, loose).word(), "--line", "2"]).printed;
        let shown = commas(frame);
        for line in [
            format!("    link 1: from node 1, to node 2, speed 100 Mbit/s, best-effort frame {shown} bytes"),
            format!("        blocking: the larger of 1,542 below and {shown} best effort = 1,542, {first}"),
            format!("        blocking: the larger of 0 below and {shown} best effort = {shown}, {last}"),
            format!("      level 1: Res 100,000, Y 0 + 1,542 + 1,542 = {}", commas(2 * 1_542)),
        ] {
            assert!(printed.lines().any(|known| known == line), "{line}: {printed}");
        }
    }
    let none = course(&["explain", &two_flows(0, loose).word()]).printed;
    assert!(
        !none.contains("blocking") && !none.contains("best"),
        "{none}"
    );
    // Refused: what fills the queue names the laptop's frame too.
    let refused = course(&[
        "explain",
        &two_flows(1_542, [(371, 9_000), (498, 9_000)]).word(),
    ]);
    let line = "    best-effort frame of the link: 1,542";
    assert!(refused.printed.lines().any(|known| known == line));
}

/// `bounds` has the formulas' numbers and a column that says which frame blocks, on links that laptops share alone.
#[test]
fn bounds_say_what_blocks() {
    let loose = [(1_000, 9_000), (1_000, 9_000)];
    let own = Aggregate {
        rate: 1_000,
        burst: 1_542,
        frame: 1_542,
    };
    for (frame, which) in [
        (300, ["below", "best-effort"]),
        (1_542, ["both", "best-effort"]),
    ] {
        let printed = course(&["bounds", &two_flows(frame, loose).word()]).printed;
        let link = Link {
            speed: 100,
            best_effort_frame: u128::from(frame),
        };
        for (level, which) in which.into_iter().enumerate() {
            let start = format!("{:>7}  1,000", level + 1);
            let row = printed
                .lines()
                .find(|line| line.starts_with(&start))
                .unwrap();
            let words: Vec<&str> = row.split_whitespace().collect();
            let known = [
                delay(link, &[own; 2], level),
                backlog(link, &[own; 2], level),
            ];
            assert_eq!(words[6], which, "{row}");
            assert_eq!(words[8], known[0].to_string(), "{row}");
            assert_eq!(words[11], commas(known[1]), "{row}");
        }
    }
    let none = course(&["bounds", &two_flows(0, loose).word()]).printed;
    assert!(!none.contains("blocking"), "{none}");
}

/// One made hall in some has a maintenance port, which its sheet names; the others are as if there were none.
#[test]
fn made_halls_with_a_port() {
    let (mut ports, mut plain_halls) = (0, 0);
    for seed in 0..60 {
        let made = make(seed);
        let queues = read_table(&made.table).unwrap();
        let mut with: Vec<&Queue> = queues.iter().collect();
        with.retain(|queue| queue.best_effort_frame > 0);
        let folder = hall_folder(&made.table, &made.orders);
        let sheet = course::hall::worksheet::worksheet(&folder, seed, made.first_part);
        let sheet = sheet.unwrap_or_else(|failed| panic!("{}", failed.errors));
        let said = sheet.matches(", best-effort frame ").count();
        match with.first() {
            None => {
                plain_halls += 1;
                assert_eq!(said, 0);
                assert!(made
                    .table
                    .split(|&byte| byte == b'\n')
                    .all(|line| line.len() < 48));
            }
            Some(first) => {
                ports += 1;
                assert_eq!(said, 1);
                let words = format!(
                    ", best-effort frame {} bytes\n",
                    commas(first.best_effort_frame)
                );
                assert!(sheet.contains(&words), "{seed}");
                assert!(with.iter().all(|queue| queue.link == first.link));
            }
        }
    }
    assert!(ports > 8 && plain_halls > 25, "{ports} {plain_halls}");
}

/// Whoever leaves the laptops of a made hall out doesn't get all rows right: code, place, link, level, delay and backlog
/// are worked out over a table without best-effort frames.
#[test]
fn laptops_of_made_halls_matter() {
    let mut ports = 0;
    for seed in 1..=60 {
        let made = make(seed);
        let mut queues = read_table(&made.table).unwrap();
        if queues.iter().all(|queue| queue.best_effort_frame == 0) {
            continue;
        }
        ports += 1;
        queues
            .iter_mut()
            .for_each(|queue| queue.best_effort_frame = 0);
        let without: Vec<u8> = queues.iter().flat_map(write_queue).collect();
        let session = Session::run(&hall_folder(&without, &made.orders));
        let session = session.unwrap_or_else(|failed| panic!("{}", failed.errors));
        let answers = course::hall::worksheet::answers(&session);
        let row = |line: &str| {
            let words: Vec<&str> = line.split_whitespace().take(7).collect();
            words.join(" ") + "\n"
        };
        let folder = Temporary::with(&made.table, &made.orders);
        let sheet: String = answers.lines().skip(1).map(row).collect();
        let sheet = folder.write("sheet.txt", sheet.as_bytes());
        let marked = course(&["mark", &folder.word(), &sheet]);
        assert_eq!(marked.status, Status::Wrong, "{seed}");
    }
    assert!(ports > 12, "{ports}");
}

/// Each of the three slips in a sheet of its own, by the numbers that it gives.
#[test]
fn slips_with_best_effort_frames() {
    let folder = two_flows(1_000, [(1_000, 9_000), (1_000, 9_000)]);
    let first_row = |delay: u64| format!("1 0 1 0 0 {delay}\n");
    // The longest stay at level 2 is that delay too.
    let last_row = |delay: u64| format!("2 0 2 0 0 {delay} - {delay}\n");
    // What blocks levels 1 and 2 in the trainee's sums of line 1 and line 2.
    let bound = |ahead: u64, residual: u64| (8_000 * (ahead + 1_542)).div_ceil(residual);
    let alone = |blocking: u64| bound(blocking + 1_542, 100_000);
    let second = |blocking: u64| bound(1_542 + blocking + 1_542, 99_000);
    for (name, first, last) in [
        ("best-effort frame left out", alone(0), second(0)),
        (
            "best-effort frame left out at the last level",
            alone(0),
            second(0),
        ),
    ] {
        let sheet = folder.write("sheet.txt", (first_row(first) + &last_row(last)).as_bytes());
        let marked = course(&["mark", &folder.word(), &sheet]);
        assert_eq!(marked.status, Status::Wrong);
        assert!(
            marked
                .printed
                .contains(&format!("slip: {name}: line 1, 2\n")),
            "{}",
            marked.printed
        );
    }
    let right = folder.write(
        "right.txt",
        (first_row(alone(1_000)) + &last_row(second(1_000))).as_bytes(),
    );
    assert_eq!(
        course(&["mark", &folder.word(), &right]).status,
        Status::Fine
    );
}

/// A slip in what blocks isn't named where a bound of the row contradicts it: here 371 and 1,573 are right, the code is wrong.
#[test]
fn right_bounds_contradict_a_slip() {
    let folder = two_flows(1_542, [(370, 9_000), (374, 9_000)]);
    let marked = |row: &str| {
        let sheet = folder.write("sheet.txt", row.as_bytes());
        course(&["mark", &folder.word(), &sheet, "--lines", "1-1"]).printed
    };
    let right = marked("1 22 0 1 1 371 1573\n");
    assert!(right.starts_with("line 1: right\n"), "{right}");
    let contradicted = marked("1 0 1 0 0 371 1573\n");
    assert!(!contradicted.contains("best-effort"), "{contradicted}");
    for row in ["1 0 1 0 0 247 1558\n", "1 0 1 0 0 247\n", "1 0 1 0 0\n"] {
        let marked = marked(row);
        let named = "best-effort frame left out, or best-effort frame left out at the last level\n";
        assert!(marked.contains(named), "{row}: {marked}");
    }
}

/// Where a frame is below, the second slip gives nothing wrong and the third a sum: line 3 puts a flow on level 1 again.
#[test]
fn slips_above_a_frame() {
    let folder = two_flows(1_000, [(1_000, 9_000), (1_000, 9_000)]);
    let orders = fs::read_to_string(folder.0.join("orders.txt")).unwrap();
    let third = " 1     9     1000     300  300    2000  1   1 1\n";
    folder.write("orders.txt", (orders + third).as_bytes());
    // Bursts 1,542 + 300, own largest frame 1,542.
    let delay = |blocking: u64| (8_000 * (blocking + 1_542 + 1_842)).div_ceil(100_000);
    let marked = |blocking| {
        let row = format!("3 0 3 0 0 {}\n", delay(blocking));
        let sheet = folder.write("sheet.txt", row.as_bytes());
        course(&["mark", &folder.word(), &sheet, "--lines", "3-3"]).printed
    };
    assert!(marked(1_542).starts_with("line 3: right\n"));
    let added = "; fits the slip: best-effort frame added to the frame below\n";
    assert!(marked(1_542 + 1_000).contains(added));
    let unknown = marked(1_000);
    assert!(!unknown.contains("slip"), "{unknown}");
}
