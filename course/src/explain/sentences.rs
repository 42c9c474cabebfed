//! One sentence for each answer.

use crate::check;
use crate::numbers::{commas, counted};
use crate::session::Step;
use crate::titles::queue_name;
use plain::causes;
use plain::orders::{Change, Flow, Hop, Order};
use plain::registry::{queue_at, Registry, HOP_POOL, SLOTS};
use plain::work::{LevelWork, Work};

/// Why the order was answered as it was; the registry is the one before it.
pub fn sentence(step: &Step, before: &Registry) -> String {
    match (&step.order, &step.work) {
        (Err(_), _) => unread(step),
        (Ok(Order::Release(number)), _) => released(step, *number),
        (Ok(Order::Register(flow)), Some(work)) => registered(step, flow, work, before),
        (Ok(Order::Change(change)), Some(work)) => changed(step, change, work, before),
        (Ok(Order::Register(_) | Order::Change(_)), None) => String::new(),
    }
}

/// The typing mistakes of a line that can't be read or is out of range.
fn unread(step: &Step) -> String {
    let mistakes = check::order_line(&step.text, step.ended);
    let one = |mistake: &check::Mistake| match mistake.field.as_str() {
        "" => format!("column {}: {}", mistake.column, mistake.words),
        field => format!("column {}, {field}: {}", mistake.column, mistake.words),
    };
    let told: Vec<String> = mistakes.iter().map(one).collect();
    format!("A typing mistake: {}.", told.join("; "))
}

fn released(step: &Step, number: u64) -> String {
    match step.answer.code {
        causes::DONE => format!(
            "Released: flow {number} gives back place {} and its hop entries.",
            step.answer.slot
        ),
        _ => not_held(number),
    }
}

fn not_held(number: u64) -> String {
    format!("No held flow has the number {number}: it was never admitted, or is released already.")
}

/// A change, and what becomes of the flow as it was held.
fn changed(step: &Step, change: &Change, work: &Work, before: &Registry) -> String {
    let held = before.holder(change.number);
    let Some((index, flow)) = held.and_then(|index| Some((index, before.slots[index].as_ref()?)))
    else {
        return not_held(change.number);
    };
    let (number, place) = (flow.number, index + 1);
    let (rate, burst) = (commas(flow.rate), commas(flow.burst));
    let why = match step.answer.code {
        causes::DONE => {
            return format!(
                "Changed: flow {number} keeps place {place}, path, largest frame and deadline; it had rate {rate} kbit/s and burst {burst} bytes."
            );
        }
        causes::FRAME => format!(
            "The new burst, {} bytes, is below the held flow's largest frame, {} bytes.",
            commas(change.burst),
            commas(flow.frame)
        ),
        code => link_refusal("change", code, answer_hop(step), work),
    };
    format!("{why} Flow {number} stays at place {place} as it was, with rate {rate} kbit/s and burst {burst} bytes.")
}

/// The link and level that an answer names.
fn answer_hop(step: &Step) -> Hop {
    Hop {
        link: step.answer.link,
        level: step.answer.level,
    }
}

fn registered(step: &Step, flow: &Flow, work: &Work, before: &Registry) -> String {
    let (answer, at) = (step.answer, answer_hop(step));
    match answer.code {
        causes::DONE => format!(
            "Admitted: no cause is met, and {} is the lowest free place.",
            answer.slot
        ),
        causes::HELD => held(flow, before),
        causes::FRAME => format!(
            "The largest frame, {} bytes, is above the burst, {} bytes.",
            commas(flow.frame),
            commas(flow.burst)
        ),
        causes::NO_QUEUE => no_queue(at, before),
        causes::LOOP => format!("Link {} stands on the path twice.", at.link),
        causes::APART => apart(flow, at, before),
        causes::DEADLINE => deadline(flow, work),
        causes::NO_SLOT => format!("All {SLOTS} places are held."),
        causes::NO_HOPS => format!(
            "Held paths have {} hop entries; with this path's {} that is above {}.",
            commas(work.held.1),
            flow.hops.len(),
            commas(HOP_POOL)
        ),
        code => link_refusal("flow", code, at, work),
    }
}

fn deadline(flow: &Flow, work: &Work) -> String {
    let thresholds = commas(work.thresholds());
    let sum = match work.fixed_delays() {
        0 => format!("{thresholds} µs"),
        cables => format!(
            "{thresholds} µs and the fixed delays to {} µs, together {} µs",
            commas(cables),
            commas(work.end_to_end())
        ),
    };
    format!(
        "The thresholds along the path sum to {sum}, above the deadline of {} µs.",
        commas(flow.deadline)
    )
}

fn held(flow: &Flow, before: &Registry) -> String {
    let place = before.holder(flow.number).map_or(0, |index| index + 1);
    format!("Flow {} is held already, at place {place}.", flow.number)
}

fn no_queue(at: Hop, before: &Registry) -> String {
    let levels = before.queues.iter().filter(|queue| queue.link == at.link);
    match levels.map(|queue| queue.level).max() {
        Some(last) => format!(
            "The table has no {}: the last level of link {} is {last}.",
            queue_name(at),
            at.link
        ),
        None => {
            let links = before.queues.last().map_or(0, |queue| queue.link);
            let links = counted(links as usize, "link", "links");
            format!("The table has no link {}: it has {links}.", commas(at.link))
        }
    }
}

fn apart(flow: &Flow, at: Hop, before: &Registry) -> String {
    let index = flow.hops.iter().position(|&hop| hop == at).unwrap_or(0);
    let earlier = flow.hops[index.saturating_sub(1)];
    let starts = queue_at(&before.queues, at).map_or(0, |queue| queue.from);
    let ended = queue_at(&before.queues, earlier).map_or(0, |queue| queue.to);
    format!(
        "Link {} starts at node {starts}, but link {} before it ends at node {ended}.",
        at.link, earlier.link
    )
}

/// 21, 22 or 23 against a new flow or a change.
fn link_refusal(asked: &str, code: u64, at: Hop, work: &Work) -> String {
    let Some(link) = work.links.last() else {
        return String::new();
    };
    if code == causes::RATE {
        return format!(
            "With this {asked} the rates on link {} sum to {} kbit/s, which isn't below {} kbit/s.",
            at.link,
            commas(link.rate_sum),
            commas(link.rate_limit)
        );
    }
    let level = work.deciding();
    let shown =
        |number: fn(&LevelWork) -> u128| level.map_or(String::new(), |level| commas(number(level)));
    if code == causes::DELAY {
        return format!(
            "With this {asked} a frame could stay {} µs in the queue of {}, above its threshold of {} µs.",
            shown(|level| level.bounds.map_or(0, |bounds| bounds.delay)),
            queue_name(at),
            shown(|level| u128::from(level.queue.threshold))
        );
    }
    format!(
        "With this {asked} the queue of {} could hold {} bytes, above its buffer of {} bytes.",
        queue_name(at),
        shown(|level| level.bounds.map_or(0, |bounds| bounds.backlog)),
        shown(|level| u128::from(level.queue.buffer))
    )
}
