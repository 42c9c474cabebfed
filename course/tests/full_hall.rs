//! Each command on a full hall of 256 flows within a second.

mod common;

use common::{course, Temporary};
use course::folder::Folder;
use course::session::Session;
use course::status::Status;
use halls::rng::Rng;
use halls::tables::{full_ring, table_text, MOST_BUFFER, MOST_THRESHOLD};
use plain::orders::{write_registration, write_release, Flow, Hop};
use std::sync::OnceLock;
use std::time::{Duration, Instant};

fn flow(rng: &mut Rng, number: u64) -> Flow {
    let start = rng.between(0, 63);
    let hops = (0..4).map(|hop| Hop {
        link: (start + hop) % 64 + 1,
        level: rng.between(1, 8),
    });
    let hops = hops.collect();
    Flow {
        number,
        rate: rng.between(1, 5_000),
        burst: rng.between(1_542, 9_999),
        frame: rng.between(84, 1_542),
        deadline: 10_000_000,
        hops,
    }
}

/// 256 flows of four hops on 512 queues, which fill slots and hop entries, then releases and registrations in turn.
fn full() -> Temporary {
    let mut rng = Rng::new(1, 1);
    let mut lines: Vec<Vec<u8>> = (1..=256)
        .map(|number| write_registration(&flow(&mut rng, number)))
        .collect();
    for number in 1..=500 {
        lines.push(write_registration(&flow(&mut rng, 1_000 + number)));
        lines.push(write_release(rng.between(1, 256)));
    }
    let mut orders = Vec::new();
    for line in lines {
        if orders.len() + line.len() <= 60_000 {
            orders.extend(line);
        }
    }
    let queues = full_ring(10_000, MOST_THRESHOLD, MOST_BUFFER);
    Temporary::with(&table_text(&queues), &orders)
}

/// The processor time of this thread so far: other work on the machine doesn't count. Where the system doesn't say, the
/// clock's.
fn time() -> Duration {
    static START: OnceLock<Instant> = OnceLock::new();
    let clock = START.get_or_init(Instant::now).elapsed();
    let told = std::fs::read_to_string("/proc/thread-self/schedstat").unwrap_or_default();
    let nanoseconds = told
        .split_whitespace()
        .next()
        .and_then(|word| word.parse().ok());
    nanoseconds.map_or(clock, Duration::from_nanos)
}

/// Every held flow as greedy as it may be, for 20 ms.
fn greedy(folder: &Temporary) -> String {
    let read = Folder::read(&folder.word()).unwrap();
    let registry = Session::run(&read).unwrap().registry;
    let held = registry.held();
    assert!(held.len() > 200, "{}", held.len());
    let line = |flow: &&Flow| format!("greedy {} from 0 to 20000\n", flow.number);
    held.iter().map(line).collect()
}

/// Answers whose places have another last digit: every row is wrong.
fn other_places(printed: &[u8]) -> Vec<u8> {
    let mut wrong = printed.to_vec();
    for line in wrong.chunks_mut(20) {
        line[12] = b'0' + (line[12] - b'0' + 1) % 10;
    }
    wrong
}

#[test]
fn every_command_takes_less_than_a_second() {
    let folder = full();
    let hall = folder.word();
    let held = course(&["bounds", &hall, "--after", "256"]).printed;
    assert!(
        held.starts_with("after 256 orders: 256 of 256 places held, 1,024 of 1,024 hop entries"),
        "{held}"
    );
    let next = course(&["explain", &hall, "--line", "257"]).printed;
    assert!(
        next.starts_with("line 257: 30 ") && next.contains("All 256 places are held."),
        "{next}"
    );
    let printed = plain::programs::admit(
        &std::fs::read(folder.0.join("table.txt")).unwrap(),
        &std::fs::read(folder.0.join("orders.txt")).unwrap(),
    );
    let sheet = folder.write("sheet.txt", &printed);
    let wrong = folder.write("wrong.txt", &other_places(&printed));
    let out = folder.0.join("made").display().to_string();
    let sends = folder.write("sends.txt", greedy(&folder).as_bytes());
    let page = folder.0.join("page.html").display().to_string();
    let commands: [(&[&str], Status); 8] = [
        (&["check", &hall], Status::Fine),
        (&["explain", &hall], Status::Fine),
        (&["explain", &hall, "--line", "256"], Status::Fine),
        (&["bounds", &hall], Status::Fine),
        (&["mark", &hall, &sheet], Status::Fine),
        (&["mark", &hall, &wrong], Status::Wrong),
        (&["hall", "--seed", "1", "--out", &out], Status::Fine),
        (&["traffic", &hall, &sends, "--page", &page], Status::Fine),
    ];
    for (words, status) in commands {
        let start = time();
        let outcome = course(words);
        let taken = time() - start;
        println!("{}: {taken:?}", words[0]);
        assert_eq!(outcome.status, status, "{words:?}: {}", outcome.errors);
        assert!(taken < Duration::from_secs(1), "{words:?}: {taken:?}");
    }
}
