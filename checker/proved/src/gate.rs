//! W-207's gate as C has it (host/devvonur_gate.h).

#[repr(C)]
#[derive(Clone, Copy)]
pub struct Gate {
    pub rate: u64,
    pub burst: u64,
    pub frame: u64,
    pub tokens: u64,
    pub reading: u32,
}

pub type Open = extern "C" fn(u64, u64, u64, u32) -> Answer;
pub type Offer = extern "C" fn(Gate, u64, u32) -> Answer;

#[repr(C)]
pub struct Answer {
    pub gate: Gate,
    pub code: u32,
}

/// The proved gate, and its offer in plain C (gate.c).
pub struct Calls {
    pub open: Open,
    pub offer: Offer,
    pub plain_offer: Offer,
}

/// None where this program was built without the library.
#[cfg(feature = "gate")]
pub const CALLS: Option<Calls> = Some(Calls {
    open: linked::devvonur_gate_open,
    offer: linked::devvonur_gate_offer,
    plain_offer: linked::plain_gate_offer,
});
#[cfg(not(feature = "gate"))]
pub const CALLS: Option<Calls> = None;

#[cfg(feature = "gate")]
mod linked {
    use super::{Answer, Gate};

    // SAFETY: they take and give numbers by value and touch nothing else.
    unsafe extern "C" {
        pub safe fn devvonur_gate_open(rate: u64, burst: u64, frame: u64, reading: u32) -> Answer;
        pub safe fn devvonur_gate_offer(gate: Gate, length: u64, reading: u32) -> Answer;
        pub safe fn plain_gate_offer(gate: Gate, length: u64, reading: u32) -> Answer;
    }
}
