//! Gates beside a library that answers as the plain version does, and beside ones that don't.

mod common;

use common::offered::{flow, listed};
use course::status::Status;
use course::traffic::gates::through;
use plain::gate::{Gate, DROPPED, GATE_REFUSED};
use proved::gate::{Answer, Calls, Gate as Lent, Offer, Open};

/// The plain version in the place of the proved library.
extern "C" fn honest_open(rate: u64, burst: u64, frame: u64, reading: u32) -> Answer {
    lent(plain::gate::open(rate, burst, frame, reading))
}

extern "C" fn honest(gate: Lent, length: u64, reading: u32) -> Answer {
    let gate = Gate {
        rate: gate.rate,
        burst: gate.burst,
        frame: gate.frame,
        tokens: gate.tokens,
        reading: gate.reading,
    };
    lent(plain::gate::offer(gate, length, reading))
}

fn lent((gate, code): (Gate, u32)) -> Answer {
    let gate = Lent {
        rate: gate.rate,
        burst: gate.burst,
        frame: gate.frame,
        tokens: gate.tokens,
        reading: gate.reading,
    };
    Answer { gate, code }
}

/// A library that keeps no tokens of a dropped frame's µs, though it stores the reading.
extern "C" fn forgetful(gate: Lent, length: u64, reading: u32) -> Answer {
    let mut answer = honest(gate, length, reading);
    if answer.code == DROPPED {
        answer.gate.tokens = gate.tokens;
    }
    answer
}

extern "C" fn closed(_: u64, _: u64, _: u64, _: u32) -> Answer {
    lent((Gate::default(), GATE_REFUSED))
}

#[test]
fn the_library_beside_it() {
    let drive = flow(2_000, 400, 100);
    let sends = listed(&[(0, 100), (0, 100), (0, 100), (0, 100), (9, 100), (10, 83)]);
    let beside = |open: Open, offer: Offer| {
        let calls = Calls {
            open,
            offer,
            plain_offer: honest,
        };
        through(Some(&calls), std::slice::from_ref(&drive), &sends)
    };
    let (passed, _) = beside(honest_open, honest).unwrap();
    assert_eq!(passed.len(), 4);
    for (open, offer, words) in [
        (
            honest_open as Open,
            forgetful as Offer,
            "line 5: flow 7, instant 9: proved 1, tokens 0, plain 1, tokens 18,000.",
        ),
        (
            closed,
            honest,
            "flow 7, opened: proved 61, tokens 0, plain 0, tokens 3,200,000.",
        ),
    ] {
        let failed = beside(open, offer).unwrap_err();
        assert_eq!(failed.status, Status::Wrong);
        assert!(failed.errors.contains(words), "{}", failed.errors);
    }
}
