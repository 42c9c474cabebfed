//! Which slip gives a wrong row.

use super::sheet::Row;
use plain::causes;
use plain::orders::{Flow, Order};
use plain::registry::{Answer, Registry};
use plain::slips::{Blocking, Growth, Slips};
use plain::work::Work;

/// What a row should hold.
#[derive(Clone, Debug, PartialEq)]
pub struct Expected {
    pub answer: [u64; 4],
    /// Delay and backlog at the deciding queue, and the delay there with the flows held at the end.
    pub bounds: [Option<u128>; 3],
}

fn numbers(answer: &Answer) -> [u64; 4] {
    [answer.code, answer.slot, answer.link, answer.level]
}

impl Expected {
    /// `last` holds the flows that are held after all orders.
    pub fn of(answer: &Answer, work: Option<&Work>, last: &Registry) -> Expected {
        let deciding = work.and_then(Work::deciding);
        let bounds = deciding.and_then(|level| level.bounds);
        let stay = deciding.map(|level| {
            let link = last.link_work(level.queue.link, None);
            let found = link.levels.iter().find(|other| other.queue == level.queue);
            let bounds = found.and_then(|other| other.bounds);
            bounds.map_or(0, |bounds| bounds.delay)
        });
        Expected {
            answer: numbers(answer),
            bounds: [
                bounds.map(|bounds| bounds.delay),
                bounds.map(|bounds| bounds.backlog),
                stay,
            ],
        }
    }

    /// Which of a row's bounds differ; one that isn't given doesn't.
    pub fn wrong_bounds(&self, row: &Row) -> [bool; 3] {
        [0, 1, 2]
            .map(|index| row.bounds[index].is_some() && row.bounds[index] != self.bounds[index])
    }

    pub fn is_met(&self, row: &Row) -> bool {
        self.answer == row.answer && self.wrong_bounds(row) == [false; 3]
    }
}

/// A registry that goes along with the trainee's own rows, by rules of which one may be broken.
struct Follower {
    name: &'static str,
    registry: Registry,
    /// The flows that are held in truth after all orders, by the same rules.
    last: Registry,
}

impl Follower {
    fn expected(&self, order: &Order) -> Expected {
        let (answer, work) = self.registry.answer_to(order);
        Expected::of(&answer, work.as_ref(), &self.last)
    }

    /// Whether these rules give the row where the true ones don't.
    fn fits(&self, order: &Order, row: &Row, truth: &Expected) -> bool {
        let own = self.expected(order);
        // What blocks, a burst's growth and a share are in both bounds: one that the slip wouldn't give contradicts it.
        let slips = &self.registry.slips;
        let grown = slips.growth == Growth::WholeThresholds || slips.share_left;
        let in_both = slips.blocking != Blocking::Larger || grown;
        if in_both && own.wrong_bounds(row) != [false; 3] {
            return false;
        }
        let wrong = truth.wrong_bounds(row);
        let given = (0..3).filter(|&index| wrong[index]);
        own.answer == row.answer
            && given
                .into_iter()
                .all(|index| row.bounds[index] == own.bounds[index])
    }

    /// Takes the trainee's word for what became of an order.
    fn follow(&mut self, order: &Order, [code, slot, link, level]: [u64; 4]) {
        let held = |flow: &Flow| self.registry.holder(flow.number).is_some();
        let twice = matches!(order, Order::Register(flow) if held(flow));
        if code == causes::DONE && twice {
            return;
        }
        let answer = Answer {
            code,
            slot,
            link,
            level,
        };
        self.registry.carry_out(order, &answer);
    }
}

/// Why a wrong row is what it is.
#[derive(Clone, Debug, PartialEq)]
pub enum Why {
    /// It is right after the trainee's own earlier rows.
    Follows,
    /// One of the usual slips gives it.
    Slips(Vec<&'static str>),
    Unknown,
}

/// The rules, and the rules with each slip, along the trainee's rows.
pub struct Followers {
    true_rules: Follower,
    slipping: Vec<Follower>,
}

impl Followers {
    /// `last` is the true registry after all orders.
    pub fn new(last: &Registry) -> Followers {
        let follower = |(name, slips): (&'static str, Slips)| Follower {
            name,
            registry: Registry::slipping(last.queues.clone(), slips),
            last: last.by(slips),
        };
        Followers {
            true_rules: follower(("", Slips::NONE)),
            slipping: Slips::EACH.map(follower).into(),
        }
    }

    pub fn why(&self, order: &Order, row: &Row, truth: &Expected) -> Why {
        if self.true_rules.fits(order, row, truth) {
            return Why::Follows;
        }
        let fitting = self
            .slipping
            .iter()
            .filter(|slip| slip.fits(order, row, truth));
        let names: Vec<&str> = fitting.map(|slip| slip.name).collect();
        if names.is_empty() {
            Why::Unknown
        } else {
            Why::Slips(names)
        }
    }

    /// Goes on by the trainee's row, or where there is none by the true answer.
    pub fn follow(&mut self, order: &Order, row: Option<&Row>, answer: &Answer) {
        let given = row.map_or(numbers(answer), |row| row.answer);
        for follower in std::iter::once(&mut self.true_rules).chain(&mut self.slipping) {
            follower.follow(order, given);
        }
    }
}
