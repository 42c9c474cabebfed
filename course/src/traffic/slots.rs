//! Time on a link, exactly. A slot is a thousandth of a bit's time there: a µs has 1000 × speed of them, so each thousandth
//! of a µs is a whole number of slots on every link.

use crate::numbers::thousandths;

/// Slots since instant 0, or how many something takes. A long run on a fast link has more than 64 bits hold.
pub type Slots = u128;

/// Thousandths in a µs, and slots in a bit's time.
pub const THOUSAND: u64 = 1000;

/// The slots of a link before an instant, a whole µs.
pub fn before(instant: u64, speed: u64) -> Slots {
    before_moment(instant * THOUSAND, speed)
}

/// The same before a thousandth of a µs.
pub fn before_moment(moment: u64, speed: u64) -> Slots {
    Slots::from(moment) * Slots::from(speed)
}

/// What so many bytes take: 8 bits each.
pub fn sending(bytes: u64) -> Slots {
    8 * Slots::from(bytes) * Slots::from(THOUSAND)
}

/// The first instant, a whole µs, at or after these slots.
pub fn instant_after(slots: Slots, speed: u64) -> u64 {
    slots.div_ceil(before(1, speed)) as u64
}

/// So many slots in µs, `123.36`, rounded up to a thousandth.
pub fn micros(slots: Slots, speed: u64) -> String {
    thousandths(slots.div_ceil(Slots::from(speed)))
}
