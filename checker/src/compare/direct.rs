//! Direct calls: each version's registry against the plain one after every call, and 42 on damaged
//! registries against document 01's "in order".

use super::changes;
use crate::answer;
use crate::book::{self, Counted};
use crate::fast;
use crate::views::Version;
use halls::rng::Rng;
use halls::Input;
use plain::columns::{lines, Line};
use plain::consistency::consistent;
use plain::orders::{CHANGE, KIND, KINDS, REGISTER, RELEASE};
use plain::registry::{Answer, Registry};
use std::collections::BTreeMap;

/// How often each code occurred.
pub type Counts = BTreeMap<u64, u64>;

/// What the direct calls of a run met.
#[derive(Default)]
pub struct Made {
    /// All answers, and those of calls to change.
    pub answers: Counts,
    pub changes: Counts,
    /// Calls that were given a line of another kind, by both kinds.
    pub crossed: BTreeMap<(u64, u64), u64>,
    /// Calls answered 42, by their kind; those on damaged registries that are in order all the same.
    pub stopped: Counts,
    pub unharmed: Counts,
}

impl Made {
    fn add(&mut self, kind: u64, line: &Line, code: u64) {
        *self.answers.entry(code).or_default() += 1;
        if kind == CHANGE {
            *self.changes.entry(code).or_default() += 1;
        }
        let known = KIND.read(line.bytes).ok();
        if let Some(other) = known.filter(|&other| other != kind) {
            *self.crossed.entry((kind, other)).or_default() += 1;
        }
    }

    /// Whatever a run must have met and didn't.
    pub fn missing(&self) -> Vec<String> {
        let mut missing = Vec::new();
        for code in changes::CODES {
            if !self.changes.contains_key(&code) {
                missing.push(format!("{code} to a call to change"));
            }
        }
        for one in KINDS {
            if !self.stopped.contains_key(&one.number) {
                missing.push(format!("42 to a call to {}", one.word));
            }
            if !self.unharmed.contains_key(&one.number) {
                missing.push(format!("an unharmed registry to {}", one.word));
            }
            for other in KINDS {
                let pair = (one.number, other.number);
                if pair.0 != pair.1 && !self.crossed.contains_key(&pair) {
                    missing.push(format!("a call to {} with a {}", one.word, other.word));
                }
            }
        }
        missing
    }
}

fn same_answer(one: &Answer, other: &answer::Answer) -> bool {
    let fields = [other.code, other.slot, other.link, other.level].map(u64::from);
    [one.code, one.slot, one.link, one.level] == fields
}

/// The call that a line is for, to register where it is for none; in a faulty list now and then another.
pub fn call_kind(rng: &mut Rng, line: &[u8], faulty: bool) -> u64 {
    if faulty && rng.once_in(12) {
        return rng.pick(&KINDS.map(|kind| kind.number));
    }
    let own = KIND.read(line).ok();
    let known = KINDS.iter().find(|kind| Some(kind.number) == own);
    known.map_or(REGISTER, |kind| kind.number)
}

/// What a call is given: the line; in a faulty list now and then a line too many, one unended, or
/// nothing.
pub fn call_bytes(rng: &mut Rng, line: &[u8], faulty: bool) -> Vec<u8> {
    let mut bytes = line.to_vec();
    bytes.push(b'\n');
    if !faulty {
        return bytes;
    }
    match rng.between(0, 39) {
        0 => bytes.clear(),
        1 => {
            bytes.pop();
        }
        2 => bytes.push(rng.pick(b"\n 1")),
        3 => bytes.extend_from_within(..),
        _ => {}
    }
    bytes
}

/// A batch's orders as direct calls on each version's registry; the same ones for each.
pub fn one_list(rng: &mut Rng, given: &Input, made: &mut Made) -> Result<(), String> {
    let again = rng.clone();
    version_list::<book::Registry>(rng, given, made)?;
    let mut others = Made::default();
    version_list::<book::Registry<Counted>>(&mut again.clone(), given, &mut others)?;
    version_list::<fast::Registry>(&mut again.clone(), given, &mut others)
}

fn version_list<R: Version>(rng: &mut Rng, given: &Input, made: &mut Made) -> Result<(), String> {
    let (mut plain, refused) = Registry::open(&given.table);
    let mut quick = Box::new(R::EMPTY);
    let outcome = quick.open(&given.table);
    let expected = refused.map_or((0, 0), |refusal| (refusal.code as u32, refusal.line as u32));
    if outcome != expected {
        return Err(format!("open: {} {outcome:?}, plain {expected:?}", R::NAME));
    }
    let order_lines = lines(&given.orders);
    let faulty = rng.once_in(2);
    for (index, line) in order_lines.iter().take(400).enumerate() {
        let kind = call_kind(rng, line.bytes, faulty);
        let bytes = call_bytes(rng, line.bytes, faulty);
        let known = plain.call(kind, &bytes);
        let found = quick.call(kind as u32, &bytes);
        made.add(kind, line, known.code);
        if !same_answer(&known, &found) {
            return Err(format!(
                "call {}: {} {found:?}, plain {known:?}",
                index + 1,
                R::NAME
            ));
        }
    }
    same_state(&plain, quick.as_ref())?;
    for _ in 0..3 {
        one_damage(rng, quick.as_ref(), made)?;
    }
    Ok(())
}

fn same_state<R: Version>(plain: &Registry, quick: &R) -> Result<(), String> {
    let seen = quick.view();
    if seen.queues != plain.queues || seen.slots != plain.slots {
        return Err(format!(
            "{}: table or flows differ after the calls",
            R::NAME
        ));
    }
    for (queue, kept) in plain.queues.iter().zip(&seen.stored) {
        if plain.aggregate(queue) != *kept {
            return Err(format!(
                "{}: figures of link {} level {} differ",
                R::NAME,
                queue.link,
                queue.level
            ));
        }
    }
    Ok(())
}

/// What a damaged registry is called with.
const TRIED: [(u64, &[u8]); 3] = [
    (
        REGISTER,
        b" 1     1     1000    1542 1542   10000  1   1 1\n",
    ),
    (RELEASE, b" 2     1\n"),
    (CHANGE, b" 3     1     1000    1542\n"),
];

/// Changes one number of a registry; a call then answers 42 exactly when it isn't in order, and as the plain version else.
fn one_damage<R: Version>(rng: &mut Rng, sound: &R, made: &mut Made) -> Result<(), String> {
    let mut damaged = Box::new(sound.clone());
    damaged.damage(rng);
    let before = damaged.view();
    let in_order = before.placed && consistent(&before.queues, &before.slots, &before.stored);
    if damaged.consistent() != in_order {
        return Err(format!(
            "{}: a damaged registry: plain says in order: {in_order}",
            R::NAME
        ));
    }
    let (kind, line) = rng.pick(&TRIED);
    let answer = damaged.call(kind as u32, line);
    *made.answers.entry(u64::from(answer.code)).or_default() += 1;
    let mut plain = Registry::over(before.queues);
    plain.slots = before.slots;
    if in_order {
        *made.unharmed.entry(kind).or_default() += 1;
        let known = plain.call(kind, line);
        if !same_answer(&known, &answer) {
            return Err(format!(
                "{}: unharmed: {answer:?}, plain {known:?}",
                R::NAME
            ));
        }
        return same_state(&plain, damaged.as_ref());
    }
    *made.stopped.entry(kind).or_default() += 1;
    let after = damaged.view();
    if answer != answer::Answer::plain(42) {
        return Err(format!("{}: not in order: {answer:?}", R::NAME));
    }
    if after.slots != plain.slots || after.stored != before.stored {
        return Err(format!("{}: a 42 changed a damaged registry", R::NAME));
    }
    Ok(())
}
