//! Laptops in SENDS, and what the command says and finds of them.

mod common;

use common::pages::drawn_by;
use common::ports::{ports, two_flows};
use common::{course as call, example, Temporary};
use course::numbers::commas;
use course::status::Status;
use std::fs;

/// What is said of SENDS on the example hall.
fn mistake(sends: &str) -> String {
    let folder = Temporary::new();
    let path = folder.write("sends.txt", sends.as_bytes());
    let outcome = call(&["traffic", &example("hall"), &path]);
    assert_eq!(outcome.status, Status::Wrong, "{sends}");
    let start = format!("{path}:");
    let words = outcome.errors.strip_prefix(start.as_str()).unwrap();
    words.lines().next().unwrap().to_string()
}

/// What is said of each SENDS; the instant's words are the same.
const MISTAKES: [(&str, &str); 9] = [
    (
        "laptop 9 1 100\n",
        "1:8: the table has no link 9: it has 8 links",
    ),
    (
        "laptop 65 1 100\n",
        "1:8: link: 65 is out of range (1 to 64)",
    ),
    ("laptop 5 1\n", "1:11: bytes: missing"),
    ("laptop 5 1 x\n", "1:12: bytes: `x` is no number"),
    ("laptop 5\n", "1:9: instant: missing"),
    (
        "laptop 5 1000000000000.001 100\n",
        "1:10: instant: 1000000000000.001 is out of range (0 to 1,000,000,000,000)",
    ),
    (
        "laptop 5 99999999999999999999 100\n",
        "1:10: instant: 99999999999999999999 is out of range (0 to 1,000,000,000,000)",
    ),
    ("laptop 5 1 100 x 2\n", "1:16: `x` isn't expected here"),
    (
        "# a flow's\n1.5 101 200\n",
        "2:1: instant: `1.5`: a flow's instants are whole µs: digits alone, without separators",
    ),
];

#[test]
fn laptop_lines_are_judged() {
    for (sends, words) in MISTAKES {
        assert_eq!(mistake(sends), words, "{sends}");
    }
    let folder = two_flows(1_542);
    let sends = folder.write("sends.txt", b"laptop 2 1 100\n");
    let said = call(&["traffic", &folder.word(), &sends]).errors;
    assert!(said.contains(":1:8: the table has no link 2: it has 1 link\n"));
    folder.write(
        "orders.txt",
        b" 1     7     1000    1542 1542     371  1   2 1\n",
    );
    let said = call(&["explain", &folder.word()]).printed;
    assert!(said.contains("The table has no link 2: it has 1 link."));
    for bytes in [0, 10_001] {
        let words = format!("1:12: bytes: {bytes} is out of range (1 to 10,000)");
        assert_eq!(mistake(&format!("laptop 5 1 {bytes}\n")), words);
    }
    for instant in ["1.2345", "1,5", ".5", "5.", "-1", "1.5.5", "1.x"] {
        let words = format!(
            "1:10: instant: `{instant}`: µs, up to three decimals behind a point, as 99.999"
        );
        assert_eq!(mistake(&format!("laptop 5 {instant} 100\n")), words);
    }
}

/// A laptop's frame that the table doesn't allow is no mistake in SENDS: it doesn't conform, and --anyway sends it.
#[test]
fn laptops_that_do_not_conform() {
    let most = ports()[0].best_effort_frame;
    let sends = format!(
        "0 101 200\nlaptop 5 0.999 {}\nlaptop 5 2 9000\nlaptop 3 0.999 100\nlaptop 5 3 {most}\n",
        most + 1
    );
    let hall = example("hall");
    let folder = Temporary::new();
    let path = folder.write("sends.txt", sends.as_bytes());
    let refused = call(&["traffic", &hall, &path]);
    assert_eq!(refused.status, Status::Unconforming);
    let words = format!(
        "line 2: laptop on link 5: a frame of {} bytes; the table gives the link a best-effort frame of {}\n\
         line 4: laptop on link 3: a frame of 100 bytes; no laptop may be plugged in here: the table gives the link no best-effort frame\n\
         {path}: not sent: 2 sources don't conform; --anyway sends it\n",
        commas(most + 1),
        commas(most)
    );
    assert!(refused.errors.ends_with(&words), "{}", refused.errors);
    let anyway = |words: &[&str]| call(&[words, &["--anyway"]].concat());
    let drawn = drawn_by(&folder, &hall, &path, Status::Fine, anyway);
    let remark = "2 sources don't conform: the promise doesn't speak of this run\n";
    assert!(drawn.printed.contains(remark), "{}", drawn.printed);
    assert!(drawn.page.contains(">none allowed</text>"));
    let longest = format!("laptop 5 1 {most}\nlaptop 6 1000000000000 {most}\n");
    let longest = folder.write("longest.txt", longest.as_bytes());
    assert_eq!(call(&["traffic", &hall, &longest]).status, Status::Fine);
}

/// The solutions' laptop of exercise four: a jumbo frame on a link to which the table gives no best-effort frame.
#[test]
fn a_laptop_makes_a_frame_late() {
    let folder = Temporary::new();
    let sends = folder.write("sends.txt", b"laptop 1 0.999 9000\n1 7 1542\n");
    let words = ["traffic", &example("two-flows"), &sends];
    assert_eq!(call(&words).status, Status::Unconforming);
    let late = call(&[words.as_slice(), &["--anyway"]].concat());
    assert_eq!(late.status, Status::Late, "{}", late.printed);
    let words = "\na frame late: link 1 level 1, 844 of 371 µs\n";
    assert!(late.printed.ends_with(words), "{}", late.printed);
}

/// The example's frame waits for a laptop's and no longer than its bound; without the laptops it doesn't wait.
#[test]
fn the_example_delays_a_frame() {
    let sends = fs::read_to_string(example("hall/laptop.txt")).unwrap();
    let quiet: String = sends
        .lines()
        .filter(|line| !line.starts_with("laptop"))
        .map(|line| format!("{line}\n"))
        .collect();
    let folder = Temporary::new();
    let quiet = folder.write("quiet.txt", quiet.as_bytes());
    let run = |path: &str| {
        let outcome = call(&["traffic", &example("hall"), path]);
        assert_eq!(outcome.status, Status::Fine, "{}", outcome.errors);
        let seen = row(&outcome.printed, "5.1");
        (outcome.printed, seen)
    };
    let (printed, loud) = run(&example("hall/laptop.txt"));
    let (without, silent) = run(&quiet);
    let port = &ports()[0];
    // A thousandth of a µs of the laptop's frame is over; both frames are sent, up to the next instant.
    let micros = |bytes: u64| 8_000 * bytes / port.speed;
    let stay = (micros(port.best_effort_frame) - 1 + micros(200)).div_ceil(1_000);
    assert_eq!((loud[0], silent[0]), (stay, micros(200).div_ceil(1_000)));
    assert!(stay <= loud[1], "{printed}");
    let words = "link 5 level 1: flow 101 frame 1 came at 48 behind a laptop's frame, 12.335 of 12.336 µs left\n";
    assert!(printed.contains(words), "{printed}");
    assert!(printed.starts_with("1 frame of 1 flow, 2 laptops' frames; those of one instant: "));
    let sent = "\nlaptop on link 5: ready at 47.999, sent from 47.999 to 60.335\n\
                laptop on link 5: ready at 50, sent from 61.935 to 74.271\n";
    assert!(printed.contains(sent), "{printed}");
    assert!(!without.contains("laptop"), "{without}");
}

/// The longest stay and the bound that a run's table has of a queue, as `5.1`.
fn row(printed: &str, queue: &str) -> [u64; 2] {
    let (link, level) = queue.split_once('.').unwrap();
    let start = format!("{link:>6}  {level:>5} ");
    let found = printed.lines().find(|line| line.starts_with(&start));
    let mut words = found.unwrap().split_whitespace().skip(2);
    [(); 2].map(|()| words.next().unwrap().parse().unwrap())
}

/// The longest stay that a search finds at a queue, and its SENDS, which give it again; nothing is late.
fn longest(hall: &str, queue: &str) -> (u64, String) {
    let folder = Temporary::new();
    let out = folder.0.join("out").display().to_string();
    let options = "--search --seconds 600 --tries 400 --queue";
    let mut words = vec!["traffic", hall];
    words.extend(options.split(' ').chain([queue, "--out", &out]));
    let found = call(&words);
    assert_eq!(found.status, Status::Fine, "{}", found.errors);
    let stay = found.printed.split_once("longest ").unwrap().1;
    let stay: u64 = stay.split(' ').next().unwrap().parse().unwrap();
    let again = call(&["traffic", hall, &out]);
    assert_eq!(again.printed.lines().last(), found.printed.lines().last());
    assert_eq!(row(&again.printed, queue)[0], stay, "{queue}");
    (stay, fs::read_to_string(&out).unwrap())
}

/// With laptops the search comes nearer to the bound, at the last level by a whole frame.
#[test]
fn the_search_uses_laptops() {
    let micros = |frames: u64| (frames * 8 * 1_542).div_ceil(100);
    for (queue, without, with) in [
        ("1.1", micros(2) - 1, micros(2)),
        ("1.2", micros(2), micros(3)),
    ] {
        let (stay, sends) = longest(&two_flows(0).word(), queue);
        assert_eq!(stay, without, "{sends}");
        assert!(!sends.contains("laptop"));
        let (stay, sends) = longest(&two_flows(1_542).word(), queue);
        assert_eq!(stay, with, "{sends}");
        let just_before = |line: &str| line.starts_with("laptop 1 ") && line.ends_with(".999 1542");
        assert!(sends.lines().any(just_before), "{sends}");
    }
}

/// The sheet's exercise: a laptop's frame just before both flows' frames, and one at their instant, which goes last.
#[test]
fn the_sheets_laptop() {
    let folder = two_flows(1_542);
    let micros = |frames: u64| (frames * 8 * 1_542).div_ceil(100);
    for (ready, before) in [("0.999", 1), ("1", 0)] {
        let sends = format!("laptop 1 {ready} 1542\n1 7 1542\n1 8 1542\n");
        let sends = folder.write("sends.txt", sends.as_bytes());
        let drawn = drawn_by(&folder, &folder.word(), &sends, Status::Fine, call);
        let seen = ["1.1", "1.2"].map(|queue| row(&drawn.printed, queue));
        let stays = [micros(before + 1), micros(before + 2)];
        assert_eq!(seen, [[stays[0], 371], [stays[1], 499]], "{ready}");
    }
}

/// The example hall's port: more of the bound is used with laptops than without.
#[test]
fn the_search_of_the_hall() {
    let table = fs::read_to_string(example("hall/table.txt")).unwrap();
    let quiet: String = table
        .lines()
        .map(|line| format!("{}\n", &line[..line.len().min(43)]))
        .collect();
    let orders = fs::read(example("hall/orders.txt")).unwrap();
    let folder = Temporary::with(quiet.as_bytes(), &orders);
    for queue in ["5.1", "5.2"] {
        let (with, _) = longest(&example("hall"), queue);
        let (without, _) = longest(&folder.word(), queue);
        assert!(with > without, "{queue}: {with} {without}");
    }
}

/// When laptops' frames were sent, where there are few; a link of 300 Mbit/s has no whole thousandths for 100 bytes.
#[test]
fn few_laptops_are_told() {
    let table = b"   1   1   2   300 1    371     9000      0 1542\n";
    let folder = Temporary::with(table, b"");
    let told = |count: usize| {
        let sends = folder.write("sends.txt", "laptop 1 1 100\n".repeat(count).as_bytes());
        let printed = call(&["traffic", &folder.word(), &sends]).printed;
        let lines = printed.lines().filter(|line| line.starts_with("laptop on"));
        lines.map(str::to_string).collect::<Vec<String>>()
    };
    let first = "laptop on link 1: ready at 1, sent from 1 to 3.667, rounded up to thousandths";
    assert_eq!(told(1), [first]);
    let third = "laptop on link 1: ready at 1, sent from 6.334 to 9";
    assert!(told(3)[2].starts_with(third));
    assert_eq!((told(20).len(), told(21).len()), (20, 0));
}
