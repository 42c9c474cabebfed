//! W-204: the held flows as the lines that register them again, and what the program `handover` leaves.

use crate::causes;
use crate::orders::{write_registration, Flow};
use crate::programs::{make_calls, put_end, put_refusal, Made, MOST_CALL_BYTES};
use crate::registry::Registry;
use crate::table::Refusal;

/// The flows of these slots as registrations, lowest slot first.
pub fn handover_text(slots: &[Option<Flow>]) -> Vec<u8> {
    let held = slots.iter().flatten();
    held.flat_map(write_registration).collect()
}

/// The same into a lent area: a code, and how many bytes were filled. 42 is judged apart, in `consistency`.
pub fn write_handover(registry: &Registry, area: &mut [u8]) -> (u64, usize) {
    let text = handover_text(&registry.slots);
    let Some(filled) = area.get_mut(..text.len()) else {
        return (causes::TEXT_AREA, 0);
    };
    filled.copy_from_slice(&text);
    (causes::DONE, text.len())
}

const TOO_LONG: &[u8] = b"handover: calls.txt: only the first 200,000 bytes count\n";

/// What a program leaves on standard output and on standard error.
#[derive(Debug, Default, PartialEq)]
pub struct Printed {
    pub out: Vec<u8>,
    pub said: Vec<u8>,
}

impl Printed {
    /// What `handover` leaves of a table and a list of calls: the text, and apart from it that a list is longer than what counts
    /// of it, and what `replay` prints of a refused table and of a list that doesn't close with a whole call.
    pub fn of(
        calls: &[u8],
        refused: Option<Refusal>,
        made: &Made,
        slots: &[Option<Flow>],
    ) -> Printed {
        let mut said = Vec::new();
        if calls.len() > MOST_CALL_BYTES {
            said.extend_from_slice(TOO_LONG);
        }
        if let Some(Refusal { code, line }) = refused {
            put_refusal(&mut said, code, line);
        }
        put_end(&mut said, made.end);
        let out = handover_text(slots);
        Printed { out, said }
    }
}

/// What `handover` leaves for a table and a recorded list of direct calls.
pub fn handover(table: &[u8], calls: &[u8]) -> Printed {
    let (mut registry, refused) = Registry::open(table);
    let made = make_calls(calls, |kind, given| registry.call(kind, given));
    Printed::of(calls, refused, &made, &registry.slots)
}
