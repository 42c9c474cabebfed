//! Lists of calls after which flows are held with gaps between them, changed or out of turn; damaged lists among them.

use crate::calls::Calls;
use crate::fast;
use crate::lists::whole_list;
use crate::views::Version;
use halls::orders::one_byte;
use halls::rng::Rng;
use plain::orders::{write_change, write_registration, write_release, Change, Flow, Hop};
use plain::orders::{CHANGE, REGISTER, RELEASE, SMALLEST_FRAME};
use plain::programs::{make_calls, write_call, MOST_CALL_BYTES};
use plain::registry::{Answer, SLOTS};

/// A table and a list of calls.
pub fn random_list(rng: &mut Rng) -> (Vec<u8>, Vec<u8>) {
    let (table, mut list, _) = whole_list(rng);
    let held = held_after(&table, &list);
    list.extend(match rng.between(0, 11) {
        0..=2 => Vec::new(),
        3 => held.iter().flat_map(release).collect(),
        _ if held.len() > SLOTS / 4 && rng.once_in(2) => filled(&held),
        _ => stirred(rng, held),
    });
    damage(rng, &mut list);
    (table, list)
}

/// The flows that a list leaves held, by the version that is soonest done.
fn held_after(table: &[u8], list: &[u8]) -> Vec<Flow> {
    let mut registry = Box::new(fast::Registry::EMPTY);
    registry.open(table);
    make_calls(list, |kind, given| {
        let answer = registry.call_unchecked(kind as u32, given);
        Answer::plain(u64::from(answer.code))
    });
    registry.view().slots.into_iter().flatten().collect()
}

fn register(flow: &Flow) -> Vec<u8> {
    write_call(REGISTER, &write_registration(flow))
}

fn release(flow: &Flow) -> Vec<u8> {
    write_call(RELEASE, &write_release(flow.number))
}

/// Small flows of one hop in all slots that are free, where the table and the hop entries have room for them.
fn filled(held: &[Flow]) -> Vec<u8> {
    let is_new = |number: &u64| held.iter().all(|flow| flow.number != *number);
    let small = |number| Flow {
        number,
        rate: 1,
        burst: SMALLEST_FRAME,
        frame: SMALLEST_FRAME,
        deadline: 10_000_000,
        hops: vec![Hop { link: 1, level: 1 }],
    };
    let numbers = (1..).filter(is_new).take(SLOTS - held.len());
    numbers
        .flat_map(|number| register(&small(number)))
        .collect()
}

/// Releases of some flows in any order, changes of others to less or to as much, and some of the first registered again.
fn stirred(rng: &mut Rng, mut held: Vec<Flow>) -> Vec<u8> {
    rng.shuffle(&mut held);
    let (gone, kept) = held.split_at(rng.index(held.len() / 2 + 1));
    let mut calls: Vec<u8> = gone.iter().flat_map(release).collect();
    for flow in kept.iter().take(10) {
        let change = Change {
            number: flow.number,
            rate: rng.between(1, flow.rate),
            burst: rng.between(flow.frame, flow.burst),
        };
        calls.extend(write_call(CHANGE, &write_change(&change)));
    }
    for flow in gone {
        if rng.once_in(2) {
            calls.extend(register(flow));
        }
    }
    calls
}

/// Leaves most lists alone; else one byte, all from some place on, some more, or far too many.
fn damage(rng: &mut Rng, list: &mut Vec<u8>) {
    match rng.between(0, 29) {
        0..=3 => list.truncate(rng.index(list.len() + 1)),
        4..=7 => one_byte(rng, list),
        8..=10 => list.extend_from_slice(rng.pick(&[&b"\n"[..], b" 4     0\n", b" 2    99\n"])),
        11 => {
            let nothing = write_call(RELEASE, b"");
            let length = MOST_CALL_BYTES + rng.index(2 * nothing.len());
            while list.len() < length {
                list.extend_from_slice(&nothing);
            }
        }
        _ => {}
    }
}
