//! Orders that reach the usual answers: for each wanted code flows are drawn until one is answered with it.

use super::network::Network;
use halls::rng::Rng;
use plain::causes;
use plain::columns::lines;
use plain::orders::{read_order, write_change, write_registration, write_release};
use plain::orders::{Change, Flow, Hop, Order, MOST_HOPS, SMALLEST_FRAME};
use plain::registry::{Answer, Registry};

/// What an order is wanted to be answered.
#[derive(Clone, Copy, Debug, PartialEq)]
enum Wanted {
    Code(u64),
    /// 22 at a level above the new flow's own.
    DelayAbove,
}

/// The refusals of the first exercise; each stands between admissions.
const REFUSALS: [Wanted; 14] = [
    Wanted::Code(causes::DELAY),
    Wanted::DelayAbove,
    Wanted::Code(causes::BACKLOG),
    Wanted::Code(causes::RATE),
    Wanted::Code(causes::DEADLINE),
    Wanted::Code(causes::HELD),
    Wanted::Code(causes::NOT_HELD),
    Wanted::Code(causes::NO_QUEUE),
    Wanted::Code(causes::APART),
    Wanted::Code(causes::LOOP),
    Wanted::Code(causes::FRAME),
    Wanted::Code(causes::COLUMNS),
    Wanted::Code(causes::RANGE),
    Wanted::Code(causes::DELAY),
];

/// How many flows are drawn for one order.
const TRIES: usize = 3_000;

/// Orders being made, with the registry that they leave.
pub struct Orders<'a> {
    network: &'a Network,
    registry: Registry,
    pub text: Vec<Vec<u8>>,
    /// Flows that were refused for want of room.
    turned_away: Vec<Flow>,
    /// Registrations of the first exercise end with this line.
    pub first_part: usize,
    next: u64,
}

impl<'a> Orders<'a> {
    /// None where some wanted answer wasn't found.
    pub fn random(rng: &mut Rng, network: &'a Network) -> Option<Orders<'a>> {
        let mut orders = Orders {
            network,
            registry: Registry::over(network.queues.clone()),
            text: Vec::new(),
            turned_away: Vec::new(),
            first_part: 0,
            next: 101,
        };
        for _ in 0..4 {
            orders.reach(rng, Wanted::Code(causes::DONE))?;
        }
        let mut refusals = REFUSALS;
        rng.shuffle(&mut refusals);
        for (index, wanted) in refusals.into_iter().enumerate() {
            orders.reach(rng, wanted)?;
            if index % 4 == 3 {
                orders.reach(rng, Wanted::Code(causes::DONE))?;
            }
        }
        orders.first_part = orders.text.len();
        orders.second_part(rng)?;
        orders.change(rng, &[causes::DELAY, causes::BACKLOG])?;
        orders.change(rng, &[causes::DONE])?;
        Some(orders)
    }

    /// Releases half and registers again: those turned away, then those released.
    fn second_part(&mut self, rng: &mut Rng) -> Option<()> {
        let mut held: Vec<Flow> = self.registry.held().into_iter().cloned().collect();
        rng.shuffle(&mut held);
        held.truncate(held.len().div_ceil(2));
        for flow in &held {
            self.add(write_release(flow.number));
        }
        self.add(write_release(held.first()?.number));
        let again = std::mem::take(&mut self.turned_away);
        let mut codes = Vec::new();
        for flow in again.iter().chain(&held) {
            codes.push(self.add(write_registration(flow)).code);
        }
        let room = |code: &&u64| [causes::RATE, causes::DELAY, causes::BACKLOG].contains(code);
        let admitted = codes.contains(&causes::DONE);
        (admitted && codes.iter().filter(room).count() > 0).then_some(())
    }

    /// Draws changes of held flows until one is answered with such a code, and adds it.
    fn change(&mut self, rng: &mut Rng, codes: &[u64]) -> Option<()> {
        for _ in 0..TRIES {
            let held = self.registry.held();
            let flow = held[rng.index(held.len())];
            let (times, of) = rng.pick(&[(3, 4), (3, 2), (2, 1), (3, 1)]);
            let change = Change {
                number: flow.number,
                rate: times * flow.rate / of,
                burst: (times * flow.burst / of).max(flow.frame),
            };
            let (answer, _) = self.registry.answer_to(&Order::Change(change));
            if codes.contains(&answer.code) {
                self.add(write_change(&change));
                return Some(());
            }
        }
        None
    }

    fn add(&mut self, line: Vec<u8>) -> Answer {
        let answer = self.registry.step(read_order(&lines(&line)[0]));
        self.text.push(line);
        answer
    }

    /// Draws lines until one is answered as wanted, and adds it.
    fn reach(&mut self, rng: &mut Rng, wanted: Wanted) -> Option<()> {
        for _ in 0..TRIES {
            let flow = self.drawn(rng, wanted);
            let line = self.line(rng, wanted, &flow);
            let order = read_order(&lines(&line)[0]);
            let answer = match &order {
                Err(code) => Answer::plain(*code),
                Ok(order) => self.registry.answer_to(order).0,
            };
            if !meets(wanted, &answer, &flow) {
                continue;
            }
            if [causes::DELAY, causes::BACKLOG, causes::RATE].contains(&answer.code) {
                self.turned_away.push(flow);
            }
            self.add(line);
            self.next += 1;
            return Some(());
        }
        None
    }

    /// A flow with the fault that a code wants.
    fn drawn(&self, rng: &mut Rng, wanted: Wanted) -> Flow {
        let mut flow = self.network.flow(rng, self.next);
        let Wanted::Code(code) = wanted else {
            return flow;
        };
        let first = flow.hops[0];
        match code {
            causes::RATE => flow.rate = rng.pick(&[70_000, 80_000, 90_000]),
            causes::DEADLINE => flow.deadline = self.network.missed_deadline(rng, &flow),
            causes::HELD => {
                let held = self.registry.held();
                flow.number = held[rng.index(held.len())].number;
            }
            causes::NO_QUEUE => {
                let at = rng.index(flow.hops.len());
                flow.hops[at].level = self.network.levels(flow.hops[at].link) + 1;
            }
            causes::LOOP => flow.hops.push(first),
            causes::APART if flow.hops.len() > 2 => {
                flow.hops.remove(1);
            }
            causes::FRAME => {
                flow.burst = flow.frame - rng.between(1, flow.frame - SMALLEST_FRAME + 1)
            }
            causes::RANGE => out_of_range(rng, &mut flow),
            _ => {}
        }
        flow
    }

    fn line(&self, rng: &mut Rng, wanted: Wanted, flow: &Flow) -> Vec<u8> {
        match wanted {
            Wanted::Code(causes::NOT_HELD) => write_release(flow.number + 400),
            Wanted::Code(causes::COLUMNS) => mistyped(rng, write_registration(flow)),
            _ => write_registration(flow),
        }
    }
}

fn meets(wanted: Wanted, answer: &Answer, flow: &Flow) -> bool {
    let own = |hop: &&Hop| hop.link == answer.link;
    match wanted {
        Wanted::Code(code) => answer.code == code,
        Wanted::DelayAbove => {
            let hop = flow.hops.iter().find(own);
            answer.code == causes::DELAY && hop.is_some_and(|hop| answer.level < hop.level)
        }
    }
}

fn out_of_range(rng: &mut Rng, flow: &mut Flow) {
    match rng.between(0, 3) {
        0 => flow.number += 65_536,
        1 => flow.frame = rng.pick(&[60, 64, 1_600]),
        2 => flow.rate = 0,
        _ => {
            let hop = flow.hops[0];
            flow.hops = vec![hop; MOST_HOPS as usize + 1];
        }
    }
}

/// A line with one slip of the typist: a blank too few or too many, a comma, a leading zero.
fn mistyped(rng: &mut Rng, mut line: Vec<u8>) -> Vec<u8> {
    match rng.between(0, 3) {
        0 => {
            line.remove(8);
        }
        1 => line.insert(8, b' '),
        2 => line[14] = b',',
        _ => line[17] = b'0',
    }
    line
}
