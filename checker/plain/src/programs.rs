//! The batch over byte areas and what the programs `admit` and `replay` print.

use crate::causes;
use crate::columns::{field, lines, put, Line};
use crate::formula::Aggregate;
use crate::orders::{read_order, write_flow, Flow, KINDS};
use crate::registry::{Answer, Registry};
use crate::table::{Queue, Refusal};

/// Bytes of an answer line with its LF.
pub const ANSWER_BYTES: usize = 20;
pub const MOST_ORDER_BYTES: usize = 60_000;
pub const MOST_ORDER_LINES: usize = 2_000;
pub const MOST_CALL_BYTES: usize = 200_000;

/// A batch begun: an empty registry on the table and the lines of the orders, or its refusal but for 40.
pub fn begin<'a>(table: &[u8], orders: &'a [u8]) -> Result<(Registry, Vec<Line<'a>>), Refusal> {
    let (registry, refused) = Registry::open(table);
    if let Some(refusal) = refused {
        return Err(refusal);
    }
    let order_lines = lines(orders);
    if orders.len() > MOST_ORDER_BYTES || order_lines.len() > MOST_ORDER_LINES {
        let (code, line) = (causes::ORDER_SIZE, 0);
        return Err(Refusal { code, line });
    }
    Ok((registry, order_lines))
}

/// A batch: code and line number come back, the answers go into the area.
pub fn batch(table: &[u8], orders: &[u8], answers: &mut [u8]) -> (u64, u64) {
    let (mut registry, order_lines) = match begin(table, orders) {
        Ok(begun) => begun,
        Err(refusal) => return (refusal.code, refusal.line),
    };
    if answers.len() < ANSWER_BYTES * order_lines.len() {
        return (causes::AREA, 0);
    }
    for (index, line) in order_lines.iter().enumerate() {
        let text = answer_line(index + 1, &registry.step(read_order(line)));
        answers[ANSWER_BYTES * index..ANSWER_BYTES * (index + 1)].copy_from_slice(&text);
    }
    (causes::DONE, order_lines.len() as u64)
}

/// The answer line of the order with this line number.
pub fn answer_line(number: usize, answer: &Answer) -> Vec<u8> {
    let mut text = Vec::new();
    put(&mut text, number as u64, 6);
    put_answer(&mut text, answer);
    text
}

fn put_answer(out: &mut Vec<u8>, answer: &Answer) {
    put(out, answer.code, 3);
    put(out, answer.slot, 4);
    put(out, answer.link, 4);
    put(out, answer.level, 2);
    out.push(b'\n');
}

pub fn put_refusal(out: &mut Vec<u8>, code: u64, line: u64) {
    put(out, code, 3);
    put(out, line, 6);
    out.push(b'\n');
}

/// What `admit` prints.
pub fn admit(table: &[u8], orders: &[u8]) -> Vec<u8> {
    admit_by(batch, table, orders)
}

/// What `admit` prints by some version of the batch.
pub fn admit_by(
    batch: impl Fn(&[u8], &[u8], &mut [u8]) -> (u64, u64),
    table: &[u8],
    orders: &[u8],
) -> Vec<u8> {
    let mut answers = vec![0; ANSWER_BYTES * MOST_ORDER_LINES];
    match batch(table, orders, &mut answers) {
        (0, count) => answers[..ANSWER_BYTES * count as usize].to_vec(),
        (code, line) => {
            let mut printed = Vec::new();
            put_refusal(&mut printed, code, line);
            printed
        }
    }
}

/// What `replay` prints for a table and a recorded list of direct calls.
pub fn replay(table: &[u8], calls: &[u8]) -> Vec<u8> {
    let mut printed = Vec::new();
    let (mut registry, refused) = Registry::open(table);
    if let Some(refusal) = refused {
        put_refusal(&mut printed, refusal.code, refusal.line);
    }
    put_calls(&mut printed, calls, |kind, given| {
        registry.call(kind, given)
    });
    let sums: Vec<Aggregate> = registry
        .queues
        .iter()
        .map(|queue| registry.aggregate(queue))
        .collect();
    put_state(&mut printed, &registry.queues, &sums, &registry.slots);
    printed
}

/// The calls of a list that were made.
pub struct Made {
    /// Each one's kind and answer.
    pub answers: Vec<(u64, Answer)>,
    /// Where the list doesn't close with a whole call: the offset of what follows the last one.
    pub end: Option<usize>,
}

/// Makes the calls of a list, up to the first that isn't one.
pub fn make_calls(calls: &[u8], mut call: impl FnMut(u64, &[u8]) -> Answer) -> Made {
    let calls = &calls[..calls.len().min(MOST_CALL_BYTES)];
    let mut answers = Vec::new();
    let mut at = 0;
    while at < calls.len() {
        let Some((kind, given)) = next_call(&calls[at..]) else {
            let end = Some(at);
            return Made { answers, end };
        };
        answers.push((kind, call(kind, given)));
        at += CALL_HEADER + given.len();
    }
    Made { answers, end: None }
}

/// The answers to a list of calls, and where it ends if not with a whole call.
pub fn put_calls(out: &mut Vec<u8>, calls: &[u8], call: impl FnMut(u64, &[u8]) -> Answer) {
    let made = make_calls(calls, call);
    for (_, answer) in &made.answers {
        put_answer(out, answer);
    }
    put_end(out, made.end);
}

pub fn put_end(out: &mut Vec<u8>, end: Option<usize>) {
    if let Some(at) = end {
        out.extend_from_slice(b"end");
        put(out, at as u64, 10);
        out.push(b'\n');
    }
}

const CALL_HEADER: usize = 9;

/// A call as the list holds it.
pub fn write_call(kind: u64, given: &[u8]) -> Vec<u8> {
    let mut call = Vec::new();
    put(&mut call, kind, 2);
    put(&mut call, given.len() as u64, 6);
    call.push(b'\n');
    call.extend_from_slice(given);
    call
}

/// The first call of a list and what it is given; none where its header or length is wrong.
fn next_call(calls: &[u8]) -> Option<(u64, &[u8])> {
    let header = calls.get(..CALL_HEADER)?;
    let kind = field(header, 1, 2)?;
    let count = field(header, 3, 8)? as usize;
    let known = KINDS.iter().any(|order| order.number == kind);
    if header[8] != b'\n' || !known {
        return None;
    }
    let given = calls.get(CALL_HEADER..CALL_HEADER + count)?;
    Some((kind, given))
}

/// Every queue's figures, then every held flow at its slot.
pub fn put_state(out: &mut Vec<u8>, queues: &[Queue], sums: &[Aggregate], slots: &[Option<Flow>]) {
    for (queue, sums) in queues.iter().zip(sums) {
        put(out, queue.link, 4);
        put(out, queue.level, 2);
        put(out, sums.rate as u64, 12);
        put(out, sums.burst as u64, 15);
        put(out, sums.frame as u64, 5);
        out.push(b'\n');
    }
    for (index, slot) in slots.iter().enumerate() {
        if let Some(flow) = slot {
            put(out, index as u64 + 1, 4);
            out.extend(write_flow(flow));
            out.push(b'\n');
        }
    }
}
