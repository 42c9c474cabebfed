//! A registry of another shape as an optimised plain Rust program: a flow is found by an index over
//! all flow numbers, a free slot and the flows of a queue by bitmaps; figures are kept up to date,
//! bounds compared as products instead of divisions. Arrays of fixed size, nothing on the heap.

mod change;
mod check;
mod link;
mod path;
mod read;

use crate::answer::{put_answer, Answer, ANSWER_LINE};
use crate::calls::Calls;
use path::burst_at_hop;
use read::{Flow, Order};

pub const LINKS: usize = 64;
pub const LEVELS: usize = 8;
/// Document 01's places.
pub const SLOTS: usize = 256;
pub const HOPS: usize = 12;
/// Document 01's hop entries.
pub const HOP_POOL: u32 = 1_024;
const WORDS: usize = SLOTS / 64;
/// Flow numbers go to 65,535.
const NUMBERS: usize = 65_536;
const MOST_ORDER_BYTES: usize = 60_000;
const MOST_ORDER_LINES: usize = 2_000;

/// A number for each level of each link; level 1 of link 1 first.
pub type Column = [[u32; LEVELS]; LINKS];

/// A held flow but for its number; hops are indices (link and level from 0).
#[derive(Clone, Copy)]
pub struct Held {
    pub rate: u32,
    pub burst: u32,
    pub frame: u32,
    pub deadline: u32,
    pub count: u32,
    pub path: [(u8, u8); HOPS],
}

impl Held {
    const EMPTY: Held = Held {
        rate: 0,
        burst: 0,
        frame: 0,
        deadline: 0,
        count: 0,
        path: [(0, 0); HOPS],
    };

    /// Its path; the count is in range.
    #[inline(always)]
    fn hops(&self) -> &[(u8, u8)] {
        &self.path[..self.count as usize]
    }
}

/// Document 01's book. A slot is held when its number isn't 0; a level past a link's last has
/// figures 0.
#[derive(Clone)]
pub struct Registry {
    pub links: u32,
    pub levels: [u32; LINKS],
    pub from: [u32; LINKS],
    pub to: [u32; LINKS],
    pub speed: [u32; LINKS],
    pub fixed_delay: [u32; LINKS],
    pub best_effort_frame: [u32; LINKS],
    pub threshold: Column,
    pub buffer: Column,
    /// The figures: rate sum, burst sum, largest frame.
    pub rate: Column,
    pub burst: Column,
    pub frame: Column,
    /// For each queue the slots with a hop there.
    pub members: [[[u64; WORDS]; LEVELS]; LINKS],
    /// Hop entries held.
    pub pool: u32,
    pub number: [u16; SLOTS],
    pub held: [Held; SLOTS],
    /// The slots that are held, a bit each.
    pub taken: [u64; WORDS],
    /// By flow number the slot that had it last.
    pub last: [u8; NUMBERS],
}

impl Calls for Registry {
    const EMPTY: Registry = Registry {
        links: 0,
        levels: [0; LINKS],
        from: [0; LINKS],
        to: [0; LINKS],
        speed: [0; LINKS],
        fixed_delay: [0; LINKS],
        best_effort_frame: [0; LINKS],
        threshold: [[0; LEVELS]; LINKS],
        buffer: [[0; LEVELS]; LINKS],
        rate: [[0; LEVELS]; LINKS],
        burst: [[0; LEVELS]; LINKS],
        frame: [[0; LEVELS]; LINKS],
        members: [[[0; WORDS]; LEVELS]; LINKS],
        pool: 0,
        number: [0; SLOTS],
        held: [Held::EMPTY; SLOTS],
        taken: [0; WORDS],
        last: [0; NUMBERS],
    };

    fn open(&mut self, table: &[u8]) -> (u32, u32) {
        *self = Registry::EMPTY;
        read::table(self, table)
    }

    fn call(&mut self, kind: u32, line: &[u8]) -> Answer {
        if !self.consistent() {
            return Answer::plain(42);
        }
        self.call_unchecked(kind, line)
    }

    fn call_unchecked(&mut self, kind: u32, line: &[u8]) -> Answer {
        let mut flow = Flow::EMPTY;
        let order = read::call(kind, line, &mut flow);
        self.step(&order, &flow)
    }
}

impl Registry {
    #[inline(always)]
    fn step(&mut self, order: &Order, flow: &Flow) -> Answer {
        match *order {
            Order::Refused(code) => Answer::plain(code),
            Order::Release(number) => self.take_out(number),
            Order::Register => self.put_in(flow),
            Order::Change => self.change(flow),
        }
    }

    /// The slot of a held flow.
    #[inline(always)]
    fn find(&self, number: u16) -> Option<usize> {
        let slot = usize::from(self.last[usize::from(number)]);
        (self.number[slot] == number).then_some(slot)
    }

    #[inline(always)]
    fn put_in(&mut self, flow: &Flow) -> Answer {
        if self.find(flow.number as u16).is_some() {
            return Answer::plain(12);
        }
        if flow.frame > flow.burst {
            return Answer::plain(17);
        }
        let mut entry = Held {
            rate: flow.rate,
            burst: flow.burst,
            frame: flow.frame,
            deadline: flow.deadline,
            count: flow.count as u32,
            path: [(0, 0); HOPS],
        };
        if let Some(refused) = self.path(flow, &mut entry) {
            return refused;
        }
        let Some(bursts) = self.bursts(&entry) else {
            return Answer::plain(20);
        };
        let Some(slot) = lowest_free(&self.taken) else {
            return Answer::plain(30);
        };
        if self.pool + flow.count as u32 > HOP_POOL {
            return Answer::plain(31);
        }
        for (&burst, &(link, level)) in bursts.iter().zip(entry.hops()) {
            let at = (link as usize, level as usize);
            match self.link_cause(at, flow.rate, burst, flow.frame) {
                (0, _) => {}
                (code, level) => return Answer::at(code, u32::from(link) + 1, level),
            }
        }
        self.hold(slot, flow.number, entry, &bursts);
        Answer::done(slot)
    }

    /// Counts a flow in at each hop of its path, where it has these bursts, and puts it in a free slot.
    #[inline(always)]
    fn hold(&mut self, slot: usize, number: u32, flow: Held, bursts: &[u64; HOPS]) {
        for (&burst, &(link, level)) in bursts.iter().zip(flow.hops()) {
            let (link, level) = (link as usize, level as usize);
            self.rate[link][level] += flow.rate;
            self.burst[link][level] += burst as u32;
            self.frame[link][level] = self.frame[link][level].max(flow.frame);
            self.members[link][level][slot / 64] |= 1 << (slot % 64);
        }
        self.pool += flow.count;
        self.number[slot] = number as u16;
        self.taken[slot / 64] |= 1 << (slot % 64);
        self.last[number as usize] = slot as u8;
        self.held[slot] = flow;
    }

    #[inline(always)]
    fn take_out(&mut self, number: u32) -> Answer {
        let Some(slot) = self.find(number as u16) else {
            return Answer::plain(13);
        };
        let flow = self.held[slot];
        let mut earlier = 0;
        for &(link, level) in flow.hops() {
            let (link, level) = (link as usize, level as usize);
            self.rate[link][level] -= flow.rate;
            self.burst[link][level] -= burst_at_hop(flow.burst, flow.rate, earlier) as u32;
            earlier += self.hop_growth(link, level);
            let members = &mut self.members[link][level];
            members[slot / 64] &= !(1 << (slot % 64));
            if self.frame[link][level] == flow.frame {
                self.frame[link][level] = largest(&self.held, members, flow.frame);
            }
        }
        self.number[slot] = 0;
        self.taken[slot / 64] &= !(1 << (slot % 64));
        self.pool -= flow.count;
        Answer::done(slot)
    }
}

#[inline(always)]
pub fn lowest_free(taken: &[u64; WORDS]) -> Option<usize> {
    let word = taken.iter().position(|&word| word != u64::MAX)?;
    Some(64 * word + taken[word].trailing_ones() as usize)
}

/// The largest frame of these slots, which is at most `most`.
#[inline(always)]
fn largest(held: &[Held; SLOTS], members: &[u64; WORDS], most: u32) -> u32 {
    let mut found = 0;
    for (word, &bits) in members.iter().enumerate() {
        let mut left = bits;
        while left != 0 {
            found = found.max(held[word * 64 + left.trailing_zeros() as usize].frame);
            if found == most {
                return found;
            }
            left &= left - 1;
        }
    }
    found
}

/// A batch: code and line number come back, the answers go into the area.
pub fn batch(table: &[u8], orders: &[u8], answers: &mut [u8]) -> (u32, u32) {
    let mut registry = Registry::EMPTY;
    let refused = read::table(&mut registry, table);
    if refused.0 != 0 {
        return refused;
    }
    if orders.len() > MOST_ORDER_BYTES {
        return (41, 0);
    }
    let ended = read::line_ends(orders);
    let unended = orders.last().is_some_and(|&byte| byte != b'\n');
    let lines = ended + usize::from(unended);
    if lines > MOST_ORDER_LINES {
        return (41, 0);
    }
    if answers.len() < ANSWER_LINE * lines {
        return (40, 0);
    }
    let (out, _) = answers.as_chunks_mut::<ANSWER_LINE>();
    let mut flow = Flow::EMPTY;
    let mut at = 0;
    let text = match orders.iter().rposition(|&byte| byte == b'\n') {
        Some(last) => &orders[..=last],
        None => &[],
    };
    for (index, line) in out[..ended].iter_mut().enumerate() {
        let (order, length) = read::order(&text[at..], &mut flow);
        at += length;
        let answer = registry.step(&order, &flow);
        put_answer(line, index as u32 + 1, answer);
    }
    if unended {
        put_answer(&mut out[ended], lines as u32, Answer::plain(10));
    }
    (0, lines as u32)
}
