//! Frames of one flow that are offered to its gate.

use course::traffic::frames::Send;
use plain::orders::{Flow, Hop};

pub fn flow(rate: u64, burst: u64, frame: u64) -> Flow {
    Flow {
        number: 7,
        rate,
        burst,
        frame,
        deadline: 1_000,
        hops: vec![Hop { link: 1, level: 1 }],
    }
}

/// Frames of one flow, instant and bytes each; lines are counted from 1.
pub fn listed(frames: &[(u64, u64)]) -> Vec<Send> {
    let one = |(index, &(instant, bytes)): (usize, &(u64, u64))| Send {
        instant,
        flow: 0,
        bytes,
        line: index + 1,
    };
    frames.iter().enumerate().map(one).collect()
}
