//! `course wire` on the kernel itself: no part of the gate, for it needs `ip`, `tc` and a network namespace.
//!
//!     cargo test --release --offline --test wire_kernel -- --ignored --test-threads 1

mod common;

use common::{example, hall};
use std::collections::BTreeSet;
use std::process::{Command, Output};

fn wire(words: &[&str]) -> Output {
    let mut command = Command::new(env!("CARGO_BIN_EXE_course"));
    command.arg("wire").args(words).output().unwrap()
}

/// Ends with this status; what it prints.
fn ends(words: &[&str], status: i32) -> String {
    let output = wire(words);
    let printed = String::from_utf8(output.stdout).unwrap();
    let errors = String::from_utf8(output.stderr).unwrap();
    assert_eq!(output.status.code(), Some(status), "{printed}{errors}");
    printed
}

/// Interfaces and network namespaces that this system shows.
fn network() -> BTreeSet<String> {
    let devices = std::fs::read_to_string("/proc/net/dev").unwrap();
    let names = devices.lines().filter_map(|line| line.split(':').next());
    let named = std::fs::read_dir("/run/netns").into_iter().flatten();
    let named = named.map(|entry| entry.unwrap().file_name().into_string().unwrap());
    names.map(str::to_string).chain(named).collect()
}

#[test]
#[ignore = "needs ip, tc and a network namespace"]
fn no_frame_late_and_nothing_left_behind() {
    let before = network();
    for folder in [hall(), example("shared"), example("two-flows")] {
        let printed = ends(&[&folder], 0);
        assert!(
            printed.contains("\nno frame late; closest link "),
            "{printed}"
        );
        assert!(printed.contains("every source conforms, by the clock"));
    }
    assert_eq!(network(), before);
}

#[test]
#[ignore = "needs ip, tc and a network namespace"]
fn a_broken_bucket_makes_a_frame_late() {
    let printed = ends(&[&hall(), "--break", "203,12"], 4);
    assert!(
        printed.contains("\na frame late: link 3 level 2, "),
        "{printed}"
    );
    let printed = ends(&[&example("shared"), "--break", "11,4"], 4);
    assert!(
        printed.contains("\na frame late: link 1 level 1, "),
        "{printed}"
    );
}

#[test]
#[ignore = "needs ip, tc and a network namespace"]
fn two_frames_take_twice_as_long_as_one() {
    // 246.72 µs: each level waits for a frame of the other. What is measured may be longer by the noise alone.
    let printed = ends(&[&example("two-flows"), "--slow", "1000"], 0);
    let rows = printed.lines().filter(|line| line.contains("in time"));
    let stays = rows.map(|line| {
        line.split_whitespace()
            .nth(3)
            .unwrap()
            .parse::<f64>()
            .unwrap()
    });
    for stay in stays {
        assert!((246.0..248.5).contains(&stay), "{printed}");
    }
}
