//! What the rounds of a benchmark measured of each version, and the bars that it must meet.

use crate::versions::{BOOK, COUNTED, FAST, PROVED};

/// µs per order or call in one round.
pub struct Round {
    pub whole: f64,
    pub first_tenth: f64,
    pub last_tenth: f64,
}

/// A version's rounds; those of one index were taken in turn with the other versions'.
pub struct Measured {
    pub name: &'static str,
    pub rounds: Vec<Round>,
}

/// Median and quartiles.
pub struct Spread {
    pub median: f64,
    pub low: f64,
    pub high: f64,
}

pub fn spread(values: impl Iterator<Item = f64>) -> Spread {
    let mut sorted: Vec<f64> = values.collect();
    sorted.sort_by(f64::total_cmp);
    let at = |part: usize| sorted[(sorted.len() - 1) * part / 4];
    Spread {
        median: at(2),
        low: at(1),
        high: at(3),
    }
}

/// A last tenth that takes more than so many times the first isn't flat.
const FLAT: f64 = 1.5;

/// The bars that were judged, and those that were missed.
#[derive(Default)]
pub struct Bars {
    judged: usize,
    missed: Vec<String>,
}

impl Bars {
    pub fn at_most(&mut self, what: String, value: f64, most: f64) {
        self.judge(value <= most, format!("{what}: {value:.2} above {most}"));
    }

    pub fn at_least(&mut self, what: String, value: f64, least: f64) {
        self.judge(value >= least, format!("{what}: {value:.2} below {least}"));
    }

    /// A value that isn't a number meets no bar.
    fn judge(&mut self, met: bool, missed: String) {
        self.judged += 1;
        if !met {
            self.missed.push(missed);
        }
    }

    /// True if bars were judged and all of them met.
    pub fn print(&self) -> bool {
        for missed in &self.missed {
            println!("bar missed: {missed}");
        }
        println!("bars: {} judged, {} missed", self.judged, self.missed.len());
        self.judged > 0 && self.missed.is_empty()
    }
}

/// What the proved version may take of another one's time.
#[derive(Clone, Copy)]
pub struct Limits {
    pub of_book: f64,
    /// None where it isn't judged.
    pub of_counted: Option<f64>,
}

/// Prints each version and the ratios. The proved version is judged: against others by the limits, and
/// its last tenth against its first.
pub fn report(title: &str, unit: &str, measured: &[Measured], limits: Limits, bars: &mut Bars) {
    for Measured { name, rounds } in measured {
        let whole = spread(rounds.iter().map(|round| round.whole));
        let first = spread(rounds.iter().map(|round| round.first_tenth)).median;
        let last = spread(rounds.iter().map(|round| round.last_tenth)).median;
        println!(
            "  {name:<7}{:>8.4} µs per {unit} ({:.4} to {:.4}); first tenth {first:.4}, last tenth {last:.4}",
            whole.median, whole.low, whole.high
        );
        if *name == PROVED {
            bars.at_most(format!("{title}, last tenth to first"), last / first, FLAT);
        }
    }
    let version = |name| measured.iter().find(|measured| measured.name == name);
    let proved = version(PROVED);
    let Some(one) = proved.or(version(BOOK)) else {
        return;
    };
    for (name, most, note) in [
        (BOOK, Some(limits.of_book), ""),
        (COUNTED, limits.of_counted, ", the book before W-203"),
        (FAST, None, ", another data structure"),
    ] {
        let Some(other) = version(name).filter(|other| other.name != one.name) else {
            continue;
        };
        let most = most.filter(|_| proved.is_some());
        let bar = most.map_or(String::new(), |most| format!(", bar {most}"));
        let found = ratio(one, other, &format!("{bar}{note}"));
        if let Some(most) = most {
            bars.at_most(format!("{title}, proved / {name}"), found, most);
        }
    }
}

/// Prints the median of the ratios, each of two runs in the same round.
fn ratio(one: &Measured, other: &Measured, note: &str) -> f64 {
    let pairs = one.rounds.iter().zip(&other.rounds);
    let found = spread(pairs.map(|(a, b)| a.whole / b.whole));
    println!(
        "  {} / {}: {:.2} ({:.2} to {:.2}){note}",
        one.name, other.name, found.median, found.low, found.high
    );
    found.median
}
