//! `course explain`: each order with its answer, a sentence, and the sums worked out as on paper.

mod bursts;
mod filling;
mod sentences;
mod sequence;
mod sums;

use crate::arguments::{Arguments, Choice, Command};
use crate::folder::Folder;
use crate::numbers::commas;
use crate::session::{remark, walk, Step};
use crate::status::{Outcome, Status};
use crate::titles::order_title;
use plain::causes;
use plain::orders::{Flow, Order};
use plain::registry::{Answer, Registry};
use sequence::Sequence;
use std::borrow::Cow;

pub const COMMAND: Command = Command {
    name: "explain",
    usage: "FOLDER [--line N]",
    about: "each order with its answer, why, and the sums worked out as on paper",
    help: "\
For each line of orders.txt (with --line N for that one): the answer as `admit` prints it, the order in words, one
sentence why, the causes in document 01's order (`+` passed, `!` met, `.` not reached), and the sums up to the first
cause: thresholds and, where the path has any, fixed delays against the deadline, the burst at each hop, and link by
link along the path the rate sum and, for each level that carries a flow, Res, Y, delay and backlog. A burst grows by
rate × S; each hop before adds its threshold to S less the shortest sending time of its link, which has a sum of its own
for each speed. Y's parts are the bursts above, what blocks and the level's own largest frame; on a link that laptops
share, which of the two blocks: the larger of the largest frame below and the link's best-effort frame, the last level's
too. 21, 22 and 23 are met link by link: a `.` behind a `!` among them means that the link, or the level, before it
decides. For a refusal by 21, 22 or 23 also the flows that fill the queue. In the sums of a change the flow counts with its
new rate and burst in place of the old, and beside each burst along its path stands the old one; the deadline isn't asked
again. Where all lines are registrations, two or more, and no --line is given, last whether their order matters: it
doesn't where all were admitted.

Exit status: 0, whatever the orders are answered; 1 a refused batch or an unreadable file; 2 usage.",
    words: 1..=1,
    choices: &[Choice::with("--line", "N")],
    run: explain,
};

fn explain(arguments: &Arguments) -> Result<Outcome, Outcome> {
    let wanted = arguments.number("--line")?;
    let folder = Folder::read(&arguments.words[0])?;
    let mut printed = String::new();
    let mut sequence = Sequence::default();
    walk(&folder, |step, before, _| {
        sequence.add(&step);
        if wanted.is_none_or(|line| line == step.number as u64) {
            if !printed.is_empty() {
                printed.push('\n');
            }
            printed += &explained(&step, before);
        }
    })?;
    let count = sequence.lines as u64;
    if let Some(line) = wanted.filter(|line| !(1..=count).contains(line)) {
        let words = format!(
            "course: --line {line}: orders.txt has {} lines",
            commas(count)
        );
        return Err(Outcome::failed(Status::Usage, words));
    }
    if let Some(words) = sequence.words().filter(|_| wanted.is_none()) {
        printed += &format!("\n{words}");
    }
    Ok(Outcome::fine(printed).with_remark(remark()))
}

/// An order's whole explanation; the registry is the one before it.
pub fn explained(step: &Step, before: &Registry) -> String {
    let mut text = format!(
        "line {}: {}\n",
        commas(step.number),
        answer_words(&step.answer)
    );
    let mut say = |line: &str| {
        if !line.is_empty() {
            text += &format!("    {line}\n");
        }
    };
    let judged = Judged::of(step, before);
    if step.order.is_ok() {
        let flow = judged.as_ref().map(|judged| judged.flow.as_ref());
        say(&order_title(&step.text, flow));
    }
    say(&sentences::sentence(step, before));
    say(&format!("causes {}", turn(step)));
    if let (Some(judged), Some(work)) = (&judged, &step.work) {
        for line in sums::sums(judged, work) {
            say(&line);
        }
    }
    text
}

/// The flow that a registration or a change is about.
struct Judged<'a> {
    /// As it would be held.
    flow: Cow<'a, Flow>,
    /// As it is held, where it is to be changed.
    held: Option<&'a Flow>,
    /// The registry of the others.
    others: Cow<'a, Registry>,
}

impl Judged<'_> {
    /// None where no flow is asked for, or the one that is to be changed isn't held.
    fn of<'a>(step: &'a Step, before: &'a Registry) -> Option<Judged<'a>> {
        match step.order.as_ref().ok()? {
            Order::Register(flow) => Some(Judged {
                flow: Cow::Borrowed(flow),
                held: None,
                others: Cow::Borrowed(before),
            }),
            Order::Change(change) => {
                let (index, flow) = before.changed(change)?;
                Some(Judged {
                    flow: Cow::Owned(flow),
                    held: before.slots[index].as_ref(),
                    others: Cow::Owned(before.without(index)),
                })
            }
            Order::Release(_) => None,
        }
    }
}

/// `22 at link 3 level 2 (delay above the threshold)`.
pub fn answer_words(answer: &Answer) -> String {
    let place = match (answer.slot, answer.link, answer.level) {
        (0, 0, 0) => String::new(),
        (0, link, 0) => format!(" at link {}", commas(link)),
        (0, link, level) => format!(" at link {} level {level}", commas(link)),
        (slot, _, _) => format!(" place {slot}"),
    };
    format!("{}{place} ({})", answer.code, causes::meaning(answer.code))
}

/// The causes in their order, each passed, met or not reached.
fn turn(step: &Step) -> String {
    let groups: &[&[u64]] = match &step.order {
        Ok(Order::Release(_)) => &causes::RELEASE,
        Ok(Order::Register(_)) => &causes::REGISTRATION,
        Ok(Order::Change(_)) => &causes::CHANGE,
        Err(_) => &[],
    };
    let reading = causes::READING.iter();
    let mut met = false;
    let mut shown = Vec::new();
    for &code in reading.chain(groups.iter().copied().flatten()) {
        let here = code == step.answer.code;
        let mark = match (met, here) {
            (true, _) => '.',
            (false, true) => '!',
            (false, false) => '+',
        };
        met |= here;
        shown.push(format!("{code}{mark}"));
    }
    shown.join(" ")
}
