//! Fixed columns read in place: fields, table lines and order lines.

use super::{Registry, HOPS, LEVELS, LINKS};

/// No field has more than nine columns, so no number comes near.
const MALFORMED: u32 = u32::MAX;

/// The number in the W columns from `at`, or MALFORMED. A LF among them makes it malformed.
#[inline(always)]
fn field<const W: usize>(text: &[u8], at: usize) -> u32 {
    let Some(columns) = text.get(at..at + W) else {
        return MALFORMED;
    };
    let mut start = 0;
    while start < W - 1 && columns[start] == b' ' {
        start += 1;
    }
    let mut value = 0u32;
    let mut wrong = columns[start] == b'0' && start < W - 1;
    for &byte in &columns[start..] {
        let digit = byte.wrapping_sub(b'0');
        wrong |= digit > 9;
        value = value.wrapping_mul(10).wrapping_add(u32::from(digit));
    }
    if wrong {
        MALFORMED
    } else {
        value
    }
}

/// The offset after the first LF at or after `at`; the text ends in one.
#[inline(always)]
fn next_line(text: &[u8], at: usize) -> usize {
    let mut end = at;
    while text[end] != b'\n' {
        end += 1;
    }
    end + 1
}

/// The number of LFs. Blocks short enough to be counted in bytes let the compiler use wide additions.
pub fn line_ends(text: &[u8]) -> usize {
    const BLOCK: usize = 192;
    let mut found = 0;
    for block in text.chunks(BLOCK) {
        let mut within = 0u8;
        for &byte in block {
            within += u8::from(byte == b'\n');
        }
        found += usize::from(within);
    }
    found
}

/// Where the LF of a line stands that ends with its buffer, its fixed delay, its best-effort frame.
const BUFFER_END: usize = 36;
const DELAY_END: usize = 43;
const BEST_EFFORT_END: usize = 48;
const MOST_TABLE_BYTES: usize = LINKS * LEVELS * (BEST_EFFORT_END + 1);

/// Reads the table into a registry without queues; code and line of the first fault, or 0 and 0.
pub fn table(registry: &mut Registry, text: &[u8]) -> (u32, u32) {
    if text.len() > MOST_TABLE_BYTES {
        return (5, 0);
    }
    let (mut at, mut number) = (0, 0);
    while at < text.len() {
        number += 1;
        let (code, length) = match Row::first(&text[at..]) {
            Some((row, length)) => (row.add(registry), length),
            None => (1, 0),
        };
        if code != 0 {
            registry.links = 0;
            return (code, number);
        }
        at += length;
    }
    (0, 0)
}

/// The numbers of a table line.
struct Row {
    link: u32,
    from: u32,
    to: u32,
    speed: u32,
    level: u32,
    threshold: u32,
    buffer: u32,
    fixed_delay: u32,
    best_effort_frame: u32,
}

impl Row {
    /// The first line of a text and its length with LF; none where it is malformed.
    fn first(text: &[u8]) -> Option<(Row, usize)> {
        let ends = |at: usize| text.get(at) == Some(&b'\n');
        let (fixed_delay, best_effort_frame, end) = if ends(BUFFER_END) {
            (0, 0, BUFFER_END)
        } else if ends(DELAY_END) {
            (field::<7>(text, 36), 0, DELAY_END)
        } else if ends(BEST_EFFORT_END) {
            (field::<7>(text, 36), field::<5>(text, 43), BEST_EFFORT_END)
        } else {
            return None;
        };
        let row = Row {
            link: field::<4>(text, 0),
            from: field::<4>(text, 4),
            to: field::<4>(text, 8),
            speed: field::<6>(text, 12),
            level: field::<2>(text, 18),
            threshold: field::<7>(text, 20),
            buffer: field::<9>(text, 27),
            fixed_delay,
            best_effort_frame,
        };
        // Only MALFORMED has the highest bit.
        let of_link = row.link | row.from | row.to | row.speed | row.fixed_delay;
        let of_queue = row.level | row.threshold | row.buffer;
        let together = of_link | row.best_effort_frame | of_queue;
        (together >> 31 == 0).then_some((row, end + 1))
    }

    /// Adds the line to the table, or says which of 2 to 4 is against it.
    fn add(self, registry: &mut Registry) -> u32 {
        let (link, level) = (self.link, self.level);
        if !ends_in_range(self.from, self.to, self.speed)
            || !extras_in_range(self.fixed_delay, self.best_effort_frame)
            || !limits_in_range(self.threshold, self.buffer)
        {
            return 2;
        }
        let links = registry.links as usize;
        let same = links > 0
            && link == links as u32
            && level == registry.levels[links - 1] + 1
            && level <= LEVELS as u32;
        let next = link == links as u32 + 1 && level == 1 && link <= LINKS as u32;
        if !same && !next {
            return 3;
        }
        let at = link as usize - 1;
        if next {
            registry.from[at] = self.from;
            registry.to[at] = self.to;
            registry.speed[at] = self.speed;
            registry.fixed_delay[at] = self.fixed_delay;
            registry.best_effort_frame[at] = self.best_effort_frame;
        }
        let differs = (registry.from[at] ^ self.from)
            | (registry.to[at] ^ self.to)
            | (registry.speed[at] ^ self.speed)
            | (registry.fixed_delay[at] ^ self.fixed_delay)
            | (registry.best_effort_frame[at] ^ self.best_effort_frame);
        if self.from == self.to || differs != 0 {
            return 4;
        }
        registry.links = link;
        registry.levels[at] = level;
        registry.threshold[at][level as usize - 1] = self.threshold;
        registry.buffer[at][level as usize - 1] = self.buffer;
        0
    }
}

/// Code 2's ranges of a link's ends and speed.
#[inline(always)]
pub fn ends_in_range(from: u32, to: u32, speed: u32) -> bool {
    (from.wrapping_sub(1) < 9_999) & (to.wrapping_sub(1) < 9_999) & (speed.wrapping_sub(1) < 10_000)
}

/// Code 2's ranges of a link's numbers that a short line leaves out.
#[inline(always)]
pub fn extras_in_range(fixed_delay: u32, best_effort_frame: u32) -> bool {
    (fixed_delay <= 10_000)
        & ((best_effort_frame == 0) | (best_effort_frame.wrapping_sub(84) <= 1_542 - 84))
}

/// Code 2's ranges of a level.
#[inline(always)]
pub fn limits_in_range(threshold: u32, buffer: u32) -> bool {
    (threshold.wrapping_sub(1) < 100_000) & (buffer.wrapping_sub(1) < 16_777_215)
}

/// A registration's fields; of the hops only the first `count` mean anything.
pub struct Flow {
    pub number: u32,
    pub rate: u32,
    pub burst: u32,
    pub frame: u32,
    pub deadline: u32,
    pub count: usize,
    pub link: [u32; HOPS],
    pub level: [u32; HOPS],
}

impl Flow {
    pub const EMPTY: Flow = Flow {
        number: 0,
        rate: 0,
        burst: 0,
        frame: 0,
        deadline: 0,
        count: 0,
        link: [0; HOPS],
        level: [0; HOPS],
    };
}

/// The flow of a registration, and the number, rate and burst of a change, stand beside it.
pub enum Order {
    Register,
    Release(u32),
    Change,
    Refused(u32),
}

/// Reads the first line of a text that ends in LF; what a registration or a change says of its flow
/// goes into `flow`. Gives the order and the offset of the next line.
#[inline(always)]
pub fn order(text: &[u8], flow: &mut Flow) -> (Order, usize) {
    match field::<2>(text, 0) {
        1 => registration(text, flow),
        2 => release(text),
        3 => change(text, flow),
        MALFORMED => (Order::Refused(10), next_line(text, 0)),
        _ => (Order::Refused(11), next_line(text, 2)),
    }
}

/// A direct call's line: exactly one, ended, of the called kind.
pub fn call(kind: u32, text: &[u8], flow: &mut Flow) -> Order {
    if text.last() != Some(&b'\n') || next_line(text, 0) != text.len() {
        return Order::Refused(10);
    }
    match field::<2>(text, 0) {
        MALFORMED => Order::Refused(10),
        found if found != kind => Order::Refused(11),
        _ => order(text, flow).0,
    }
}

#[inline(always)]
fn release(text: &[u8]) -> (Order, usize) {
    let number = field::<6>(text, 2);
    if number == MALFORMED || text.get(8) != Some(&b'\n') {
        return (Order::Refused(10), next_line(text, 2));
    }
    if number.wrapping_sub(1) < 65_535 {
        (Order::Release(number), 9)
    } else {
        (Order::Refused(11), 9)
    }
}

/// The fields that a change shares with a registration.
#[inline(always)]
fn demand(text: &[u8], flow: &mut Flow) {
    flow.number = field::<6>(text, 2);
    flow.rate = field::<9>(text, 8);
    flow.burst = field::<8>(text, 17);
}

#[inline(always)]
fn change(text: &[u8], flow: &mut Flow) -> (Order, usize) {
    const END: usize = 25;
    demand(text, flow);
    if (flow.number | flow.rate | flow.burst) >> 31 != 0 || text.get(END) != Some(&b'\n') {
        return (Order::Refused(10), next_line(text, 2));
    }
    if demand_in_range(flow.number, flow.rate, flow.burst) {
        (Order::Change, END + 1)
    } else {
        (Order::Refused(11), END + 1)
    }
}

#[inline(always)]
fn registration(text: &[u8], flow: &mut Flow) -> (Order, usize) {
    demand(text, flow);
    flow.frame = field::<5>(text, 25);
    flow.deadline = field::<8>(text, 30);
    let count = field::<3>(text, 38);
    if (flow.number | flow.rate | flow.burst | flow.frame | flow.deadline | count) >> 31 != 0 {
        return (Order::Refused(10), next_line(text, 2));
    }
    if count.wrapping_sub(1) >= HOPS as u32 {
        return (Order::Refused(11), next_line(text, 41));
    }
    flow.count = count as usize;
    let mut together = 0;
    for hop in 0..flow.count {
        flow.link[hop] = field::<4>(text, 41 + 6 * hop);
        flow.level[hop] = field::<2>(text, 45 + 6 * hop);
        together |= flow.link[hop] | flow.level[hop];
    }
    let end = 41 + 6 * flow.count;
    if together >> 31 != 0 || text.get(end) != Some(&b'\n') {
        return (Order::Refused(10), next_line(text, 41));
    }
    if flow_in_range(
        flow.number,
        flow.rate,
        flow.burst,
        flow.frame,
        flow.deadline,
    ) {
        (Order::Register, end + 1)
    } else {
        (Order::Refused(11), end + 1)
    }
}

/// Code 11's ranges of what a change gives.
#[inline(always)]
fn demand_in_range(number: u32, rate: u32, burst: u32) -> bool {
    (number.wrapping_sub(1) < 65_535)
        & (rate.wrapping_sub(1) < 10_000_000)
        & (burst.wrapping_sub(84) <= 1_000_000 - 84)
}

/// Code 11's ranges, the hop count apart.
#[inline(always)]
pub fn flow_in_range(number: u32, rate: u32, burst: u32, frame: u32, deadline: u32) -> bool {
    demand_in_range(number, rate, burst)
        & (frame.wrapping_sub(84) <= 1_542 - 84)
        & (deadline.wrapping_sub(1) < 10_000_000)
}
