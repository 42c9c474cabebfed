//! Orders and direct calls carried out on the plain registry.

use crate::causes;
use crate::orders::{read_call, Flow, Order, REGISTER};
use crate::registry::{Answer, Registry};
use crate::work::Work;

impl Registry {
    /// The direct call for orders of this kind.
    pub fn call(&mut self, kind: u64, bytes: &[u8]) -> Answer {
        self.step(read_call(kind, bytes))
    }

    /// The direct call to register.
    pub fn register(&mut self, bytes: &[u8]) -> Answer {
        self.call(REGISTER, bytes)
    }

    /// One order, as it was read.
    pub fn step(&mut self, order: Result<Order, u64>) -> Answer {
        match order {
            Err(code) => Answer::plain(code),
            Ok(order) => self.perform(&order).0,
        }
    }

    /// One order; for a registration or a change also what was worked out.
    pub fn perform(&mut self, order: &Order) -> (Answer, Option<Work>) {
        let (answer, work) = self.answer_to(order);
        self.carry_out(order, &answer);
        (answer, work)
    }

    /// What becomes of an order that is answered so.
    pub fn carry_out(&mut self, order: &Order, answer: &Answer) {
        match (order, answer.code) {
            (Order::Register(flow), causes::DONE) => self.put_in(flow),
            (Order::Register(flow), code) => self.keep_early(flow, code, answer.link),
            (Order::Release(number), causes::DONE) => self.take_out(*number),
            (Order::Change(change), causes::DONE) => self.put_changed(change),
            (Order::Release(_) | Order::Change(_), _) => {}
        }
    }

    /// What an order would be answered, and what is worked out for it.
    pub fn answer_to(&self, order: &Order) -> (Answer, Option<Work>) {
        match order {
            Order::Register(flow) => {
                let work = self.judge(flow);
                let free = self.slots.iter().position(Option::is_none);
                let done = free.map(Answer::done);
                let answer = work.refused.or(done).expect("30 was tested");
                (answer, Some(work))
            }
            Order::Release(number) => {
                let done = self.holder(*number).map(Answer::done);
                (done.unwrap_or(Answer::plain(causes::NOT_HELD)), None)
            }
            Order::Change(change) => {
                let work = self.judge_change(change);
                let done = self.holder(change.number).map(Answer::done);
                let answer = work.refused.or(done).expect("13 was tested");
                (answer, Some(work))
            }
        }
    }

    /// The slip of storing a path's first links before a refusal with this code at a later one.
    fn keep_early(&mut self, flow: &Flow, code: u64, link: u64) {
        let at_a_link = [causes::RATE, causes::DELAY, causes::BACKLOG].contains(&code);
        if !self.slips.stored_early || !at_a_link {
            return;
        }
        let hops = self.hops_work(flow);
        let refusing = flow.hops.iter().position(|hop| hop.link == link);
        let passed = hops.iter().take(refusing.unwrap_or(0));
        self.residue.extend(passed.map(|hop| (hop.hop, hop.share)));
    }
}
