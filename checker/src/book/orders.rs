//! What an order line says: codes 10 and 11. A registration's hops stand beside it.

use super::columns::field;
use super::store::{burst_in_range, number_in_range, rate_in_range};
use super::{Slot, HOPS};

#[derive(Clone, Copy)]
pub struct Hop {
    pub link: u32,
    pub level: u32,
}

impl Hop {
    pub const NONE: Hop = Hop { link: 0, level: 0 };
}

/// A flow number, and the rate and burst that the flow is to have.
#[derive(Clone, Copy)]
pub struct Change {
    pub number: u32,
    pub rate: u32,
    pub burst: u32,
}

pub enum Order {
    /// A flow as its line gives it; its first `hops` hops are in the array beside it.
    Register(Slot),
    /// A flow number.
    Release(u32),
    Change(Change),
    /// 10 or 11.
    Refused(u32),
}

const MALFORMED: u32 = 10;
const OUT_OF_RANGE: u32 = 11;
const RELEASE_LINE: usize = 8;
const CHANGE_LINE: usize = 25;
const HEAD: usize = 41;
const HOP_COLUMNS: usize = 6;

/// The order of a line without its LF.
#[inline]
pub fn read_order(line: &[u8], hops: &mut [Hop; HOPS]) -> Order {
    let order = match field::<1, 2>(line) {
        Some(1) => read_registration(line, hops),
        Some(2) => read_release(line),
        Some(3) => read_change(line),
        Some(_) => Err(OUT_OF_RANGE),
        None => Err(MALFORMED),
    };
    order.unwrap_or_else(Order::Refused)
}

/// The order of a direct call: exactly one line with its LF, of the call's own kind.
pub fn read_call(kind: u32, bytes: &[u8], hops: &mut [Hop; HOPS]) -> Order {
    let Some((b'\n', line)) = bytes.split_last() else {
        return Order::Refused(MALFORMED);
    };
    if line.contains(&b'\n') {
        return Order::Refused(MALFORMED);
    }
    match field::<1, 2>(line) {
        Some(found) if found != kind => Order::Refused(OUT_OF_RANGE),
        _ => read_order(line, hops),
    }
}

#[inline]
fn read_release(line: &[u8]) -> Result<Order, u32> {
    if line.len() != RELEASE_LINE {
        return Err(MALFORMED);
    }
    let number = field::<3, 8>(line).ok_or(MALFORMED)?;
    if !number_in_range(number) {
        return Err(OUT_OF_RANGE);
    }
    Ok(Order::Release(number))
}

#[inline]
fn read_change(line: &[u8]) -> Result<Order, u32> {
    if line.len() != CHANGE_LINE {
        return Err(MALFORMED);
    }
    let number = field::<3, 8>(line).ok_or(MALFORMED)?;
    let rate = field::<9, 17>(line).ok_or(MALFORMED)?;
    let burst = field::<18, 25>(line).ok_or(MALFORMED)?;
    if !(number_in_range(number) && rate_in_range(rate) && burst_in_range(burst)) {
        return Err(OUT_OF_RANGE);
    }
    Ok(Order::Change(Change {
        number,
        rate,
        burst,
    }))
}

#[inline]
fn read_registration(line: &[u8], hops: &mut [Hop; HOPS]) -> Result<Order, u32> {
    let flow = read_head(line).ok_or(MALFORMED)?;
    let count = flow.hops as usize;
    if !(1..=HOPS).contains(&count) {
        return Err(OUT_OF_RANGE);
    }
    if line.len() != HEAD + HOP_COLUMNS * count {
        return Err(MALFORMED);
    }
    for (hop, columns) in hops.iter_mut().zip(line[HEAD..].chunks_exact(HOP_COLUMNS)) {
        *hop = read_hop(columns).ok_or(MALFORMED)?;
    }
    if !flow.in_range() {
        return Err(OUT_OF_RANGE);
    }
    Ok(Order::Register(flow))
}

/// The columns of a registration before its hops.
#[inline]
fn read_head(line: &[u8]) -> Option<Slot> {
    Some(Slot {
        number: field::<3, 8>(line)?,
        rate: field::<9, 17>(line)?,
        burst: field::<18, 25>(line)?,
        frame: field::<26, 30>(line)?,
        deadline: field::<31, 38>(line)?,
        hops: field::<39, 41>(line)?,
    })
}

#[inline]
fn read_hop(columns: &[u8]) -> Option<Hop> {
    Some(Hop {
        link: field::<1, 4>(columns)?,
        level: field::<5, 6>(columns)?,
    })
}
