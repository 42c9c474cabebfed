//! The lowest free slot by itself, found in the words of bits that say which are held: the proved search and the plain ones, for
//! their answers on many words, and for their time beside a search bit by bit.

use crate::book::{first_clear, SLOTS, WORDS};
use crate::clock::micros;
use crate::fast::lowest_free;
use crate::rounds::{spread, Bars};
use crate::versions::{BOOK, FAST, PROVED};
use halls::rng::Rng;
pub use proved::Search;
use std::collections::BTreeMap;
use std::hint::black_box;

const BIT_BY_BIT: &str = "bit by bit";

/// Each version's search, each of them a call; the proved one where it is linked.
pub fn searches() -> Vec<(&'static str, Search)> {
    let proved = proved::FIRST_FREE.map(|search| (PROVED, search));
    let others = [
        (BOOK, by_book as Search),
        (FAST, by_fast),
        (BIT_BY_BIT, bit_by_bit),
    ];
    proved.into_iter().chain(others).collect()
}

/// A search in four words, as one in any number of them.
#[inline(always)]
fn in_four(words: &[u64], search: impl Fn(&[u64; WORDS]) -> Option<usize>) -> usize {
    let found = words.try_into().ok().and_then(search);
    found.unwrap_or(SLOTS)
}

#[inline(never)]
fn by_book(words: &[u64]) -> usize {
    in_four(words, first_clear)
}

#[inline(never)]
fn by_fast(words: &[u64]) -> usize {
    in_four(words, lowest_free)
}

#[inline(never)]
fn bit_by_bit(words: &[u64]) -> usize {
    in_four(words, |words| {
        (0..SLOTS).find(|slot| words[slot / 64] >> (slot % 64) & 1 == 0)
    })
}

/// What every search must find, from the bits as a list.
fn expected(words: &[u64]) -> usize {
    let bits = |word: &u64| (0..64).map(|at| word & (1 << at) != 0).collect::<Vec<_>>();
    let held: Vec<bool> = words.iter().flat_map(bits).collect();
    let free = held.iter().position(|held| !held);
    free.filter(|_| held.len() == SLOTS).unwrap_or(SLOTS)
}

/// Kinds of words, each with how they are drawn; all but the last are four.
type Draw = fn(&mut Rng) -> Vec<u64>;
const KINDS: [(&str, Draw); 6] = [
    ("all set", |_| vec![u64::MAX; WORDS]),
    ("all but a few set", |rng| all_but_few(rng, u64::MAX)),
    ("a few set", |rng| all_but_few(rng, 0)),
    ("all clear", |_| vec![0; WORDS]),
    ("any", |rng| (0..WORDS).map(|_| rng.draw()).collect()),
    ("another number of words", |rng| {
        let length = rng.pick(&[0, 1, 2, 3, 5, 8]);
        vec![rng.pick(&[0, u64::MAX, u64::MAX >> 1]); length]
    }),
];

/// The same word four times, but for one to three bits.
fn all_but_few(rng: &mut Rng, word: u64) -> Vec<u64> {
    let mut words = vec![word; WORDS];
    for _ in 0..rng.between(1, 3) {
        let slot = rng.index(SLOTS);
        words[slot / 64] ^= 1 << (slot % 64);
    }
    words
}

/// What a run met: kinds of words, and words in which the least clear bit was.
#[derive(Default)]
pub struct Met(BTreeMap<String, u64>);

impl Met {
    fn add(&mut self, kind: &str, found: usize) {
        *self.0.entry(kind.to_string()).or_default() += 1;
        *self.0.entry(place(found / 64)).or_default() += 1;
    }

    pub fn missing(&self) -> Vec<String> {
        let kinds = KINDS.iter().map(|(kind, _)| kind.to_string());
        let all = kinds.chain((0..=WORDS).map(place));
        all.filter(|what| !self.0.contains_key(what)).collect()
    }

    pub fn print(&self) {
        let shown: Vec<String> = self
            .0
            .iter()
            .map(|(what, n)| format!("{what}: {n}"))
            .collect();
        println!("words: {}", shown.join(", "));
    }
}

fn place(word: usize) -> String {
    if word == WORDS {
        return "found in none".to_string();
    }
    format!("found in word {}", word + 1)
}

/// Puts so many words to each search; the first wrong answer ends the run.
pub fn compare(seed: u64, count: u64, searches: &[(&str, Search)]) -> Result<Met, String> {
    let mut met = Met::default();
    for index in 0..count {
        let mut rng = Rng::new(seed, index);
        let (kind, draw) = rng.pick(&KINDS);
        let words = draw(&mut rng);
        let known = expected(&words);
        for (name, search) in searches {
            let found = search(&words);
            if found != known {
                return Err(format!(
                    "seed {seed} words {index}: {name} finds {found} in {words:x?}, not {known}"
                ));
            }
        }
        met.add(kind, known);
    }
    Ok(met)
}

/// How many searches are timed at once, and how often.
const TIMED: usize = 10_000;
const ROUNDS: usize = 101;
/// Bit by bit takes so many times as long as the proved search.
const GAIN: f64 = 10.0;

/// Words of a full registry, and of one with only the last slot free.
const FULL: [(&str, [u64; WORDS]); 2] = [
    ("all slots held", [u64::MAX; WORDS]),
    (
        "only slot 256 free",
        [u64::MAX, u64::MAX, u64::MAX, u64::MAX >> 1],
    ),
];

/// Nanoseconds for a search in these words.
fn nanos(search: Search, words: &[u64]) -> f64 {
    let time = micros(|| {
        for _ in 0..TIMED {
            black_box(black_box(search)(black_box(words)));
        }
    });
    1000.0 * time / TIMED as f64
}

/// Times each search, one after the other in each round. False where an answer is wrong.
pub fn bench(bars: &mut Bars) -> bool {
    let searches = searches();
    for (title, words) in &FULL {
        let title = format!("search in the words, {title}");
        if searches
            .iter()
            .any(|(_, search)| search(words) != expected(words))
        {
            println!("{title}: answers differ");
            return false;
        }
        let mut times = vec![Vec::new(); searches.len()];
        for _ in 0..ROUNDS {
            for ((_, search), times) in searches.iter().zip(&mut times) {
                times.push(nanos(*search, words));
            }
        }
        println!("{title}: {ROUNDS} rounds of {TIMED} searches");
        let names = searches.iter().map(|(name, _)| *name);
        report(&title, &names.zip(times).collect::<Vec<_>>(), bars);
    }
    true
}

/// Prints each search and how many times as long bit by bit takes; the proved one is judged.
fn report(title: &str, times: &[(&str, Vec<f64>)], bars: &mut Bars) {
    let Some(((_, slow), quick)) = times.split_last() else {
        return;
    };
    for (name, times) in times {
        let found = spread(times.iter().copied());
        println!(
            "  {name:<10}{:>8.2} ns per search ({:.2} to {:.2})",
            found.median, found.low, found.high
        );
    }
    for (name, times) in quick {
        let gain = spread(slow.iter().zip(times).map(|(slow, quick)| slow / quick));
        let mut note = String::new();
        if *name == PROVED {
            let what = format!("{title}, {BIT_BY_BIT} / {name}");
            bars.at_least(what, gain.median, GAIN);
            note = format!(", bar: at least {GAIN}");
        }
        println!(
            "  {BIT_BY_BIT} / {name}: {:.1} ({:.1} to {:.1}){note}",
            gain.median, gain.low, gain.high
        );
    }
}
