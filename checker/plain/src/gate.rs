//! W-207: the gate at the sender, which holds it to the bucket that it registered.

use crate::columns::Field;
use crate::orders::{BURST, FRAME, RATE, SMALLEST_FRAME};

pub const PASSED: u32 = 0;
pub const DROPPED: u32 = 1;
pub const FRAME_REFUSED: u32 = 60;
pub const GATE_REFUSED: u32 = 61;

/// Tokens for a byte.
pub const BYTE: u128 = 8_000;
/// µs until the clock is at the same reading again.
pub const TURN: u64 = 1 << 32;

/// A gate by value; no gate at all where every number is 0.
#[derive(Clone, Copy, Debug, Default, PartialEq)]
pub struct Gate {
    /// kbit/s.
    pub rate: u64,
    /// Bytes.
    pub burst: u64,
    /// The largest frame, bytes.
    pub frame: u64,
    /// 8000ths of a byte.
    pub tokens: u64,
    /// The last reading of the clock that was stored, µs.
    pub reading: u32,
}

/// The tokens of a full bucket.
pub fn full(burst: u64) -> u128 {
    BYTE * u128::from(burst)
}

fn allows(field: Field, value: u64) -> bool {
    field.fault_of(value).is_none()
}

/// Whether an order line may have this rate, burst and largest frame; 17 is among what it may not.
fn registrable(rate: u64, burst: u64, frame: u64) -> bool {
    allows(RATE, rate) && allows(BURST, burst) && allows(FRAME, frame) && frame <= burst
}

/// The µs from one reading to the next, which is later by less than a turn.
fn time_passed(from: u32, to: u32) -> u64 {
    let (from, to) = (u64::from(from), u64::from(to));
    if from <= to {
        to - from
    } else {
        TURN - from + to
    }
}

/// A full gate and 0, or no gate and 61.
pub fn open(rate: u64, burst: u64, frame: u64, reading: u32) -> (Gate, u32) {
    if !registrable(rate, burst, frame) {
        return (Gate::default(), GATE_REFUSED);
    }
    let gate = Gate {
        rate,
        burst,
        frame,
        tokens: full(burst) as u64,
        reading,
    };
    (gate, PASSED)
}

/// A frame of this length offered at this reading: the gate after it, and a code.
pub fn offer(gate: Gate, length: u64, reading: u32) -> (Gate, u32) {
    let Gate {
        rate, burst, frame, ..
    } = gate;
    if !registrable(rate, burst, frame) || u128::from(gate.tokens) > full(burst) {
        return (gate, GATE_REFUSED);
    }
    if length < SMALLEST_FRAME || length > frame {
        return (gate, FRAME_REFUSED);
    }
    let earned = u128::from(rate) * u128::from(time_passed(gate.reading, reading));
    let there = full(burst).min(u128::from(gate.tokens) + earned);
    let price = BYTE * u128::from(length);
    let (left, code) = if price <= there {
        (there - price, PASSED)
    } else {
        (there, DROPPED)
    };
    let gate = Gate {
        tokens: left as u64,
        reading,
        ..gate
    };
    (gate, code)
}
