//! A gate before each source (W-207): what passes it is sent; what it drops or refuses isn't.

use super::frames::Send;
use crate::bounds::aligned;
use crate::numbers::{commas, counted};
use crate::status::{Outcome, Status};
use plain::gate::{self, Gate, BYTE, DROPPED, FRAME_REFUSED, PASSED, TURN};
use plain::orders::{Flow, SMALLEST_FRAME};
use proved::gate::{Answer, Calls, Gate as Lent};
use std::fmt;

/// What is said on standard error of gates that were compared.
pub fn remark() -> &'static str {
    match proved::gate::CALLS {
        Some(_) => "the proved gate answers each offer the same",
        None => "",
    }
}

/// What the gates did, one for each flow that SENDS names, in the order of the flows.
#[derive(Debug)]
pub struct Gates {
    pub counts: Vec<Count>,
}

/// What a flow's gate did.
#[derive(Clone, Debug, PartialEq)]
pub struct Count {
    /// The flow's number.
    pub flow: u64,
    pub passed: u64,
    pub dropped: u64,
    pub refused: u64,
    /// The first frame that it dropped and the first that it refused, as they came.
    pub firsts: Vec<Stopped>,
}

impl Count {
    pub fn offered(&self) -> u64 {
        self.passed + self.dropped + self.refused
    }
}

/// A frame that a gate didn't let pass.
#[derive(Clone, Debug, PartialEq)]
pub struct Stopped {
    pub send: Send,
    /// The gate after it.
    pub gate: Gate,
    pub code: u32,
    /// Turns of the clock that the gate missed since it was last full.
    pub missed: u64,
}

/// A gate at its sender.
struct Post {
    gate: Gate,
    /// The instant of its last reading. The clock alone doesn't tell how often it went round since.
    stored: u64,
    missed: u64,
    count: Count,
}

/// The clock at an instant.
fn reading(instant: u64) -> u32 {
    (instant % TURN) as u32
}

impl Post {
    /// Opened at instant 0. A held flow's numbers are those of a gate: 61 can't turn, here or later.
    fn open(beside: Option<&Calls>, flow: &Flow) -> Result<Post, Outcome> {
        let (rate, burst, frame) = (flow.rate, flow.burst, flow.frame);
        let known = gate::open(rate, burst, frame, reading(0));
        let found = beside.map(|calls| (calls.open)(rate, burst, frame, reading(0)));
        compare(known, found, || format!("flow {}, opened", flow.number))?;
        Ok(Post {
            gate: known.0,
            stored: 0,
            missed: 0,
            count: Count {
                flow: flow.number,
                passed: 0,
                dropped: 0,
                refused: 0,
                firsts: Vec::new(),
            },
        })
    }

    /// Whether the frame passes.
    fn offer(&mut self, beside: Option<&Calls>, send: &Send) -> Result<bool, Outcome> {
        let clock = reading(send.instant);
        let (gate, code) = gate::offer(self.gate, send.bytes, clock);
        let found = beside.map(|calls| (calls.offer)(lent(self.gate), send.bytes, clock));
        compare((gate, code), found, || place(send, self.count.flow))?;
        self.gate = gate;
        match code {
            PASSED => self.count.passed += 1,
            DROPPED => self.count.dropped += 1,
            _ => self.count.refused += 1,
        }
        if code != FRAME_REFUSED {
            self.stored_at(send, code);
        }
        let known = |stopped: &Stopped| stopped.code == code;
        if code != PASSED && !self.count.firsts.iter().any(known) {
            self.count.firsts.push(Stopped {
                send: *send,
                gate,
                code,
                missed: self.missed,
            });
        }
        Ok(code == PASSED)
    }

    /// A full gate has missed nothing, however often the clock went round.
    fn stored_at(&mut self, send: &Send, code: u32) {
        let taken = match code {
            PASSED => BYTE * u128::from(send.bytes),
            _ => 0,
        };
        let there = u128::from(self.gate.tokens) + taken;
        self.missed = match there == gate::full(self.gate.burst) {
            true => 0,
            false => self.missed + (send.instant - self.stored) / TURN,
        };
        self.stored = send.instant;
    }
}

/// `line 3: flow 11, instant 1`.
fn place(send: &Send, flow: u64) -> String {
    let instant = commas(send.instant);
    format!("line {}: flow {flow}, instant {instant}", send.line)
}

/// A gate as the library takes it.
fn lent(gate: Gate) -> Lent {
    Lent {
        rate: gate.rate,
        burst: gate.burst,
        frame: gate.frame,
        tokens: gate.tokens,
        reading: gate.reading,
    }
}

/// The library's answer as the plain version gives it.
fn given(Answer { gate, code }: Answer) -> (Gate, u32) {
    let gate = Gate {
        rate: gate.rate,
        burst: gate.burst,
        frame: gate.frame,
        tokens: gate.tokens,
        reading: gate.reading,
    };
    (gate, code)
}

/// Whether the library, where it is linked, answers as the plain version does.
fn compare(
    known: (Gate, u32),
    found: Option<Answer>,
    place: impl Fn() -> String,
) -> Result<(), Outcome> {
    let Some(found) = found.map(given).filter(|found| *found != known) else {
        return Ok(());
    };
    let words = |(gate, code): (Gate, u32)| format!("{code}, tokens {}", commas(gate.tokens));
    Err(Outcome::failed(
        Status::Wrong,
        format!(
            "course: the proved gate and the plain version's differ: {}: proved {}, plain {}.\n\
             One of them is wrong. Nothing is sent; please report the three files.",
            place(),
            words(found),
            words(known)
        ),
    ))
}

/// What passes, and what each gate did; `sends` is sorted by instant. Each answer is compared with that of the calls beside it,
/// where there are any.
pub fn through(
    beside: Option<&Calls>,
    flows: &[Flow],
    sends: &[Send],
) -> Result<(Vec<Send>, Gates), Outcome> {
    let mut posts: Vec<Option<Post>> = flows.iter().map(|_| None).collect();
    let mut passed = Vec::new();
    for send in sends {
        let post = match &mut posts[send.flow] {
            Some(post) => post,
            none => none.insert(Post::open(beside, &flows[send.flow])?),
        };
        if post.offer(beside, send)? {
            passed.push(*send);
        }
    }
    let counts = posts.into_iter().flatten().map(|post| post.count);
    let counts = counts.collect();
    Ok((passed, Gates { counts }))
}

impl fmt::Display for Stopped {
    /// What it needed and what was there, or what it may have.
    fn fmt(&self, out: &mut fmt::Formatter) -> fmt::Result {
        let Stopped {
            send, gate, code, ..
        } = self;
        if *code != DROPPED {
            return write!(
                out,
                "refused ({code}): a frame of {} bytes; its frames have {SMALLEST_FRAME} to {}",
                commas(send.bytes),
                commas(gate.frame)
            );
        }
        let needed = BYTE as u64 * send.bytes;
        let wait = (needed - gate.tokens).div_ceil(gate.rate);
        write!(
            out,
            "dropped ({code}): {BYTE} × {} = {} above {} tokens; such a frame passes from {} on, if no other does before",
            commas(send.bytes),
            commas(needed),
            commas(gate.tokens),
            commas(send.instant + wait)
        )?;
        match self.missed {
            0 => Ok(()),
            missed => write!(
                out,
                "; since it was last full the gate missed {} of the clock, {} µs each",
                counted(missed as usize, "turn", "turns"),
                commas(TURN)
            ),
        }
    }
}

impl Gates {
    pub fn offered(&self) -> u64 {
        self.counts.iter().map(Count::offered).sum()
    }

    /// A row for each gate, then the first frame that each dropped and the first that it refused.
    pub fn report(&self) -> String {
        let heads = ["flow", "offered", "passed", "dropped", "refused"];
        let mut rows = vec![heads.map(str::to_string).to_vec()];
        let mut firsts = String::new();
        for count in &self.counts {
            let numbers = [count.offered(), count.passed, count.dropped, count.refused];
            let mut row = vec![count.flow.to_string()];
            row.extend(numbers.map(commas));
            rows.push(row);
            for stopped in &count.firsts {
                firsts += &format!("{}: {stopped}\n", place(&stopped.send, count.flow));
            }
        }
        format!(
            "a gate before each source, opened at instant 0\n{}{firsts}",
            aligned(&rows)
        )
    }
}
