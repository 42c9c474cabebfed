//! W-203: the stores of the book against a list of flows, what their records of held slots must meet, and the search in words.

use checker::book::{Bits, Counted, Registry, Slot, Store, POOL, SLOTS};
use checker::calls::Calls;
use checker::search::{compare, searches, Search};
use halls::rng::Rng;

/// The flow and the path, or none, at each slot.
type Plain = Vec<Option<(Slot, Vec<u32>)>>;

fn drawn(rng: &mut Rng) -> (Slot, Vec<u32>) {
    let path: Vec<u32> = (0..rng.between(1, 12)).map(|_| rng.draw() as u32).collect();
    let flow = Slot {
        number: rng.between(1, 65_535) as u32,
        rate: rng.draw() as u32,
        frame: rng.draw() as u32,
        hops: path.len() as u32,
        ..Slot::NONE
    };
    (flow, path)
}

fn entries(plain: &[Option<(Slot, Vec<u32>)>]) -> usize {
    plain.iter().flatten().map(|(_, path)| path.len()).sum()
}

fn same<S: Store>(store: &S, plain: &Plain) {
    assert!(store.packed());
    assert_eq!(store.held_entries(), entries(plain));
    assert_eq!(store.first_free(), plain.iter().position(Option::is_none));
    let mut flows = store.flows();
    for (slot, held) in plain.iter().enumerate() {
        assert_eq!(store.is_held(slot), held.is_some());
        let Some((flow, path)) = held else { continue };
        assert_eq!(store.start(slot), entries(&plain[..slot]));
        assert_eq!(store.flow(slot), *flow);
        assert_eq!(flows.next(), Some((slot, *flow, path.as_slice())));
        assert_eq!(store.find(flow.number), Some(slot));
    }
    assert_eq!(flows.next(), None);
}

/// Fills a store, then empties and fills slots in turn; released numbers aren't found.
fn follows<S: Store>(seed: u64) {
    let mut rng = Rng::new(seed, 0);
    let mut store = Box::new(S::EMPTY);
    let mut plain: Plain = vec![None; SLOTS];
    same(store.as_ref(), &plain);
    for step in 0..1_200 {
        let slot = rng.index(SLOTS);
        if step % 4 == 3 && plain[slot].is_some() {
            let (flow, _) = plain[slot].take().unwrap();
            store.remove(slot, store.start(slot));
            assert_eq!(store.find(flow.number), None);
        } else if let Some(slot) = store.first_free() {
            let (flow, path) = drawn(&mut rng);
            let held = store.held_entries();
            if POOL < held + path.len() || store.find(flow.number).is_some() {
                continue;
            }
            store.insert(slot, flow, &path, held);
            plain[slot] = Some((flow, path));
        }
        same(store.as_ref(), &plain);
    }
    let free: Vec<usize> = (0..SLOTS).filter(|&slot| plain[slot].is_none()).collect();
    assert!(free.iter().any(|&slot| store.flow(slot).number != 0));
}

#[test]
fn stores_follow_a_list() {
    for seed in 1..=3 {
        follows::<Bits>(seed);
        follows::<Counted>(seed);
    }
}

const TABLE: &[u8] = b"   1   1   2   100 1  10000  1000000\n";

fn registration(number: u32) -> Vec<u8> {
    format!(" 1{number:>6}        1      84   84   10000  1   1 1\n").into_bytes()
}

/// Flows 1 to 3 held in slots 1 to 3, flow 4 released from slot 4.
fn three_held() -> Box<Registry> {
    let mut registry = Box::new(Registry::EMPTY);
    assert_eq!(registry.open(TABLE), (0, 0));
    for number in 1..=4 {
        assert_eq!(registry.call(1, &registration(number)).code, 0);
    }
    assert_eq!(registry.call(2, b" 2     4\n").code, 0);
    registry
}

/// What flow 9 gets, and where.
fn ninth_after(damage: impl FnOnce(&mut Bits)) -> (u32, u32) {
    let mut registry = three_held();
    damage(&mut registry.store);
    let answer = registry.call(1, &registration(9));
    (answer.code, answer.slot)
}

#[test]
fn a_free_slot_may_hold_anything() {
    assert_eq!(ninth_after(|_| {}), (0, 4));
    for slot in [3, 4, 255] {
        let junk = |store: &mut Bits| {
            let flow = store.flow(1);
            store.set_flow(slot, flow);
            store.starts[slot] = u32::MAX;
            store.hops[slot] = u32::MAX;
        };
        assert_eq!(ninth_after(junk), (0, 4), "{slot}");
        let number = |store: &mut Bits| store.numbers[slot] = 9;
        assert_eq!(ninth_after(number), (0, 4), "{slot}");
    }
}

#[test]
fn bits_and_starts_of_held_slots_count() {
    type Damage = fn(&mut Bits);
    let damages: [(&str, Damage); 9] = [
        ("a start", |store| store.starts[1] = 0),
        ("the first start", |store| store.starts[0] = 1),
        ("a start past the pool", |store| store.starts[2] = u32::MAX),
        ("a held flow's bit", |store| store.bits[0] &= !2),
        ("a released flow's bit", |store| store.bits[0] |= 1 << 3),
        ("the last slot's bit", |store| store.bits[3] |= 1 << 63),
        ("no hops", |store| store.hops[2] = 0),
        ("one flow more, without hops", |store| {
            let flow = store.flow(2);
            let (number, hops) = (50, 0);
            let none = Slot {
                number,
                hops,
                ..flow
            };
            store.set_flow(200, none);
            store.starts[200] = 3;
            store.bits[3] |= 1 << (200 - 192);
        }),
        ("too many hops", |store| store.hops[2] = u32::MAX),
    ];
    for (what, damage) in damages {
        assert_eq!(ninth_after(damage), (42, 0), "{what}");
    }
}

/// Entries that are told to lie one after the other, to the pool's end and past it.
#[test]
fn entries_fit_the_pool() {
    let with_hops = |last: u32| {
        let mut store = Bits::EMPTY;
        store.bits[0] = 0b101;
        (store.hops[0], store.hops[2], store.starts[2]) = (1_000, last, 1_000);
        store.packed()
    };
    assert!(with_hops(24));
    assert!(!with_hops(25));
    assert!(!with_hops(u32::MAX));
}

#[test]
fn searches_agree() {
    let met = compare(1, 3_000, &searches()).unwrap();
    assert_eq!(met.missing(), Vec::<String>::new());
}

/// A search that leaves out a word, counts from a word's upper end, or takes any number of words is found out.
#[test]
fn mistaken_searches_show() {
    let mistakes: [Search; 3] = [
        |words| {
            let known = searches()[0].1;
            let mut words = words.to_vec();
            words.iter_mut().skip(3).for_each(|word| *word = u64::MAX);
            known(&words)
        },
        |words| {
            let word = words.iter().position(|&word| word != u64::MAX);
            word.map_or(256, |at| 64 * at + words[at].leading_ones() as usize)
        },
        |words| {
            let word = words.iter().position(|&word| word != u64::MAX);
            word.map_or(256, |at| 64 * at + words[at].trailing_ones() as usize)
        },
    ];
    for (index, mistake) in mistakes.into_iter().enumerate() {
        let found = compare(1, 3_000, &[("mistaken", mistake)]);
        assert!(found.is_err(), "mistake {index}");
    }
}
