//! Writes frames as SENDS, without those that a stay doesn't need.

use super::figures::Figures;
use super::frames::{Laptop, Send, Sends};
use super::hall::Hall;
use super::network::Network;
use super::run::{run, Arrivals};
use super::search::Best;
use super::slots::THOUSAND;
use crate::numbers::{commas, counted, thousandths};

/// Single frames are tried up to so many; beyond, whole flows alone.
const MOST_SINGLES: usize = 400;

/// Takes frames out of a schedule for as long as the stay at its queue doesn't get shorter.
struct Pruning<'a> {
    hall: &'a Hall,
    network: Network,
    arrivals: &'a Arrivals,
    best: Best,
}

/// The list without those that are dropped.
fn fewer<T: Copy>(list: &[T], drop: impl Fn(usize, &T) -> bool) -> Vec<T> {
    let indexed = list.iter().enumerate();
    let kept = indexed.filter(|(index, one)| !drop(*index, one));
    kept.map(|(_, one)| *one).collect()
}

impl Pruning<'_> {
    fn without(&mut self, drop: impl Fn(usize, &Send) -> bool) {
        let sends = &self.best.sends;
        self.attempt(Sends {
            frames: fewer(&sends.frames, drop),
            laptops: sends.laptops.clone(),
        });
    }

    fn without_laptop(&mut self, drop: impl Fn(usize, &Laptop) -> bool) {
        let sends = &self.best.sends;
        self.attempt(Sends {
            frames: sends.frames.clone(),
            laptops: fewer(&sends.laptops, drop),
        });
    }

    fn attempt(&mut self, sends: Sends) {
        if sends == self.best.sends {
            return;
        }
        let mut figures = Figures::new(&self.hall.queues);
        run(&self.network, &sends, self.arrivals.clone(), &mut figures);
        let longest = figures.seen[self.best.stay.queue].longest;
        if let Some(stay) = longest.filter(|stay| stay.length() >= self.best.stay.length()) {
            self.best = Best { stay, sends };
        }
    }
}

/// Fewer frames with as long a stay, or a longer one. A source that leaves frames out still
/// conforms. The first frame goes at instant 0, or a laptop's just after it.
pub fn pruned(hall: &Hall, arrivals: &Arrivals, best: Best) -> Best {
    let mut pruning = Pruning {
        hall,
        network: Network::new(&hall.queues, &hall.flows),
        arrivals,
        best,
    };
    let gone = pruning.best.stay.gone;
    pruning.without(|_, send| send.instant >= gone);
    for laptop in (0..pruning.best.sends.laptops.len()).rev() {
        pruning.without_laptop(|index, _| index == laptop);
    }
    for flow in 0..hall.flows.len() {
        pruning.without(|_, send| send.flow == flow);
    }
    let count = pruning.best.sends.frames.len();
    if count <= MOST_SINGLES {
        for single in (0..count).rev() {
            pruning.without(|index, _| index == single);
        }
    }
    let mut best = pruning.best;
    let sent = best.sends.frames.first().map(|send| send.instant);
    let ready = best.sends.laptops.first();
    let ready = ready.map(|laptop| laptop.ready / THOUSAND);
    let first = sent.into_iter().chain(ready).min().unwrap_or(0);
    for send in &mut best.sends.frames {
        send.instant -= first;
    }
    for laptop in &mut best.sends.laptops {
        laptop.ready -= first * THOUSAND;
    }
    best
}

/// SENDS by their time; neighbours that are alike are one line.
pub fn write(hall: &Hall, list: &Sends, how: &str) -> String {
    let mut text = format!("# {how}: {} frames", commas(list.frames.len()));
    if !list.laptops.is_empty() {
        let count = counted(list.laptops.len(), "laptop's", "laptops'");
        text += &format!(" and {count}");
    }
    text.push('\n');
    let mut laptops = list.laptops.iter().peekable();
    let mut rest = list.frames.as_slice();
    while let Some(first) = rest.first() {
        while let Some(laptop) = laptops.next_if(|next| next.ready < first.instant * THOUSAND) {
            text += &laptop_line(laptop);
        }
        let count = rest.iter().take_while(|send| *send == first).count();
        let number = hall.flows[first.flow].number;
        text += &format!("{} {number} {}", first.instant, first.bytes);
        if count > 1 {
            text += &format!(" x {count}");
        }
        text.push('\n');
        rest = &rest[count..];
    }
    text + &laptops.map(laptop_line).collect::<String>()
}

fn laptop_line(laptop: &Laptop) -> String {
    let instant = thousandths(laptop.ready.into()).replace(',', "");
    format!("laptop {} {instant} {}\n", laptop.link + 1, laptop.bytes)
}
