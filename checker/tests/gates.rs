//! W-207's gate by hand, and the chains of offers: that the plain gate keeps every promise, and that mistaken ones show.

use checker::gates::{self, Version};
use plain::gate::{offer, open, Gate, DROPPED, FRAME_REFUSED, GATE_REFUSED, PASSED};

/// 1,000 kbit/s: 84 bytes take 672 µs.
fn opened(reading: u32) -> Gate {
    let (gate, code) = open(1_000, 168, 84, reading);
    assert_eq!(code, PASSED);
    gate
}

/// Code and tokens after each offer in turn.
fn answers(mut gate: Gate, offers: &[(u64, u32)]) -> Vec<(u32, u64)> {
    let mut found = Vec::new();
    for &(length, reading) in offers {
        let (after, code) = offer(gate, length, reading);
        gate = after;
        found.push((code, gate.tokens));
    }
    found
}

#[test]
fn tokens_by_hand() {
    let offers = [(84, 0), (84, 0), (84, 671), (84, 672), (84, 5_000)];
    let known = [
        (PASSED, 672_000),
        (PASSED, 0),
        (DROPPED, 671_000),
        (PASSED, 0),
        (PASSED, 672_000),
    ];
    assert_eq!(answers(opened(0), &offers), known);
}

#[test]
fn round_the_corner() {
    let last = u32::MAX;
    let offers = [(84, last), (84, last), (84, 670), (84, 671)];
    let known = [
        (PASSED, 672_000),
        (PASSED, 0),
        (DROPPED, 671_000),
        (PASSED, 0),
    ];
    assert_eq!(answers(opened(last - 9), &offers), known);
    // A whole turn later the reading is the same.
    let whole = [(84, 5), (84, 5), (84, 5)];
    let known = [(PASSED, 672_000), (PASSED, 0), (DROPPED, 0)];
    assert_eq!(answers(opened(5), &whole), known);
}

#[test]
fn refusals_change_nothing() {
    let (gate, _) = offer(opened(7), 84, 9);
    for length in [0, 83, 85, u64::MAX] {
        assert_eq!(offer(gate, length, 900), (gate, FRAME_REFUSED));
    }
    let full = 8_000 * 168;
    let wrong = [
        Gate { rate: 0, ..gate },
        Gate {
            rate: 10_000_001,
            ..gate
        },
        Gate { burst: 83, ..gate },
        Gate {
            burst: 1_000_001,
            ..gate
        },
        Gate { frame: 83, ..gate },
        Gate { frame: 169, ..gate },
        Gate {
            tokens: full + 1,
            ..gate
        },
        Gate::default(),
        Gate {
            rate: u64::MAX,
            burst: u64::MAX,
            frame: u64::MAX,
            tokens: u64::MAX,
            reading: u32::MAX,
        },
    ];
    for gate in wrong {
        for length in [84, 83] {
            assert_eq!(offer(gate, length, 900), (gate, GATE_REFUSED));
        }
    }
    let full = Gate {
        tokens: full,
        ..gate
    };
    assert_eq!(offer(full, 84, 9).1, PASSED);
}

#[test]
fn openings() {
    let code = |rate, burst, frame| {
        let (gate, code) = open(rate, burst, frame, 3);
        let none = Gate::default();
        assert_eq!(gate == none, code == GATE_REFUSED);
        code
    };
    for (rate, burst, frame) in [(1, 84, 84), (10_000_000, 1_000_000, 1_542)] {
        assert_eq!(code(rate, burst, frame), PASSED);
    }
    let refused = [
        (0, 84, 84),
        (10_000_001, 84, 84),
        (1, 83, 84),
        (1, 1_000_001, 84),
        (1, 84, 83),
        (1, 1_543, 1_543),
        (1, 84, 85),
    ];
    for (rate, burst, frame) in refused {
        assert_eq!(code(rate, burst, frame), GATE_REFUSED);
    }
}

const CHAINS: u64 = 1_000;

#[test]
fn every_kind_of_chain_occurs() {
    let linked = Version::linked();
    let met = gates::compare(1, CHAINS, &Version::plain(), &linked).unwrap();
    assert_eq!(met.missing(), Vec::<String>::new());
    let few = gates::compare(1, 1, &Version::plain(), &linked).unwrap();
    assert!(!few.missing().is_empty());
}

type Offer = fn(Gate, u64, u32) -> (Gate, u32);

/// The plain gate's tokens with a step of it done otherwise.
const MISTAKES: [(&str, Offer); 7] = [
    ("no corner", |gate, length, reading| {
        let from = gate.reading.min(reading);
        let (after, code) = offer(
            Gate {
                reading: from,
                ..gate
            },
            length,
            reading,
        );
        (unless_refused(gate, after, code), code)
    }),
    ("no cap", |gate, length, reading| {
        let (after, code) = offer(gate, length, reading);
        let earned = gate.rate * u64::from(reading.wrapping_sub(gate.reading));
        let taken = if code == PASSED { 8_000 * length } else { 0 };
        let tokens = match code {
            PASSED | DROPPED => gate.tokens + earned - taken,
            _ => after.tokens,
        };
        (Gate { tokens, ..after }, code)
    }),
    ("a drop stores tokens alone", |gate, length, reading| {
        let (mut after, code) = offer(gate, length, reading);
        if code == DROPPED {
            after.reading = gate.reading;
        }
        (after, code)
    }),
    (
        "a drop stores the reading alone",
        |gate, length, reading| {
            let (mut after, code) = offer(gate, length, reading);
            if code == DROPPED {
                after.tokens = gate.tokens;
            }
            (after, code)
        },
    ),
    ("a refusal stores the reading", |gate, length, reading| {
        let (mut after, code) = offer(gate, length, reading);
        if code == FRAME_REFUSED {
            after.reading = reading;
        }
        (after, code)
    }),
    ("just enough isn't enough", |gate, length, reading| {
        let (mut after, mut code) = offer(gate, length, reading);
        if code == PASSED && after.tokens == 0 {
            (after.tokens, code) = (8_000 * length, DROPPED);
        }
        (after, code)
    }),
    ("8,000 too few taken", |gate, length, reading| {
        let (mut after, code) = offer(gate, length, reading);
        if code == PASSED {
            after.tokens += 8_000;
        }
        (after, code)
    }),
];

/// The state that was given where an offer is refused.
fn unless_refused(before: Gate, after: Gate, code: u32) -> Gate {
    match code {
        PASSED | DROPPED => after,
        _ => before,
    }
}

fn mistaken(offer: Offer) -> Version {
    Version {
        name: "mistaken",
        offer: Box::new(offer),
        ..Version::plain()
    }
}

/// Each is found beside the plain gate, and by the promises where nothing is beside it.
#[test]
fn mistaken_gates_show() {
    for (mistake, offer) in MISTAKES {
        let one = mistaken(offer);
        let beside = gates::compare(1, CHAINS, &Version::plain(), &[mistaken(offer)]);
        let told = beside.err().unwrap_or_default();
        assert!(told.contains("mistaken answers"), "{mistake}: {told}");
        let told = gates::compare(1, CHAINS, &one, &[])
            .err()
            .unwrap_or_default();
        assert!(!told.is_empty(), "{mistake}");
    }
}

/// Gates that conform, and drop or refuse what had to pass.
#[test]
fn gates_that_pass_too_little_show() {
    let never: Offer = |gate, length, reading| {
        let (after, code) = offer(Gate { tokens: 0, ..gate }, length, gate.reading);
        let code = if code == PASSED { DROPPED } else { code };
        let after = Gate {
            tokens: gate.tokens,
            reading,
            ..after
        };
        (unless_refused(gate, after, code), code)
    };
    let told = gates::compare(1, CHAINS, &mistaken(never), &[]).err();
    assert!(told.unwrap_or_default().contains("bytes dropped at"));
    let refusing: Offer = |gate, _, _| (gate, FRAME_REFUSED);
    let told = gates::compare(1, CHAINS, &mistaken(refusing), &[]).err();
    assert!(told.unwrap_or_default().ends_with("bytes are answered 60"));
}

/// A refused opening that leaves numbers behind.
#[test]
fn a_gate_left_by_a_refused_opening_shows() {
    let leaving = Version {
        open: Box::new(|rate, burst, frame, reading| {
            let (mut gate, code) = open(rate, burst, frame, reading);
            gate.reading = reading;
            (gate, code)
        }),
        ..Version::plain()
    };
    let told = gates::compare(1, CHAINS, &leaving, &[]).err();
    assert!(told
        .unwrap_or_default()
        .contains("a refused opening leaves"));
}
