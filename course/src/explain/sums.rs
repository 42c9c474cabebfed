//! The sums of a registration or a change, written as on paper.

use super::bursts::bursts;
use super::filling::filling;
use super::Judged;
use crate::numbers::commas;
use crate::titles::{blocking_by, link_title};
use plain::causes;
use plain::formula::Sums;
use plain::orders::Flow;
use plain::registry::Answer;
use plain::work::{HopWork, LevelWork, LinkWork, Work};

fn plus(numbers: impl Iterator<Item = u128>) -> String {
    let shown: Vec<String> = numbers.map(commas).collect();
    shown.join(" + ")
}

/// `1,500 + 1,800 + 300 = 3,600`; one number stands alone.
fn summed(numbers: &[u128]) -> String {
    let sum: u128 = numbers.iter().sum();
    match numbers {
        [_] => commas(sum),
        _ => format!("{} = {}", plus(numbers.iter().copied()), commas(sum)),
    }
}

/// A value against what it must not exceed.
fn against(value: u128, limit: u64, unit: &str) -> String {
    let above = if value > u128::from(limit) {
        ": above"
    } else {
        ""
    };
    format!("{} of {} {unit}{above}", commas(value), commas(limit))
}

/// All sums up to the first cause. A change keeps path and deadline, so that the latter isn't asked again.
pub fn sums(judged: &Judged, work: &Work) -> Vec<String> {
    let (flow, others) = (&judged.flow, &judged.others);
    let mut lines = Vec::new();
    if work.hops.is_empty() {
        return lines;
    }
    if judged.held.is_none() {
        lines.extend(deadline_sums(flow, work));
    }
    if work.links.is_empty() {
        return lines;
    }
    let old = judged.held.map(|held| others.hops_work(held));
    lines.extend(bursts(flow, &work.hops, &old.unwrap_or_default()));
    for link in &work.links {
        let refused = work.refused.filter(|answer| answer.link == link.link);
        lines.extend(link_sums(link, refused));
    }
    if let Some(answer) = work.refused {
        lines.extend(filling(flow, answer, others));
    }
    lines
}

/// What is held against the deadline; a path without cables has thresholds alone.
fn deadline_sums(flow: &Flow, work: &Work) -> Vec<String> {
    let along = |number: fn(&HopWork) -> u64| {
        let numbers = work.hops.iter().map(|hop| u128::from(number(hop)));
        summed(&numbers.collect::<Vec<u128>>())
    };
    let thresholds = format!("thresholds {}", along(|hop| hop.queue.threshold));
    let above = if work.end_to_end() > u128::from(flow.deadline) {
        ": above"
    } else {
        ""
    };
    let verdict = format!("of {} µs{above}", commas(flow.deadline));
    if work.fixed_delays() == 0 {
        return vec![format!("{thresholds} {verdict}")];
    }
    let both = [work.thresholds(), work.fixed_delays()];
    vec![
        thresholds,
        format!("fixed delays {}", along(|hop| hop.queue.fixed_delay)),
        format!("together {} {verdict}", summed(&both)),
    ]
}

/// A link's rate sum and its levels, up to the one that refuses.
fn link_sums(link: &LinkWork, refused: Option<Answer>) -> Vec<String> {
    let title = link.levels.first().map(|level| link_title(&level.queue));
    let mut lines = vec![title.unwrap_or_default()];
    let rates: Vec<u128> = link.levels.iter().map(|level| level.figures.rate).collect();
    let verdict = if link.rate_sum < link.rate_limit {
        "below"
    } else {
        "not below"
    };
    let limit = commas(link.rate_limit);
    lines.push(format!(
        "  rates {}, {verdict} {limit} kbit/s",
        summed(&rates)
    ));
    let refused = refused.filter(|answer| answer.code != causes::RATE);
    if link.rate_sum >= link.rate_limit {
        return lines;
    }
    for level in &link.levels {
        lines.extend(level_sums(link, level, refused));
        if refused.is_some_and(|answer| answer.level == level.queue.level) {
            break;
        }
    }
    lines
}

fn level_sums(link: &LinkWork, level: &LevelWork, refused: Option<Answer>) -> Vec<String> {
    let queue = &level.queue;
    let Some(bounds) = &level.bounds else {
        return vec![format!("  level {}: empty, not checked", queue.level)];
    };
    let sums = &bounds.sums;
    let parts = [sums.above, sums.under_way(), sums.own.frame];
    let mut lines = vec![format!(
        "  level {}: Res {}, Y {}",
        queue.level,
        residual(link, sums),
        summed(&parts)
    )];
    lines.extend(blocking(sums));
    lines.push(format!(
        "    delay ceil(8000 × ({} + {}) / {}) = {}",
        commas(sums.ahead()),
        commas(sums.own.burst),
        commas(sums.residual),
        against(bounds.delay, queue.threshold, "µs")
    ));
    let here = refused.filter(|answer| answer.level == queue.level);
    if here.is_none_or(|answer| answer.code == causes::BACKLOG) {
        lines.push(format!(
            "    backlog {} + ceil({} × {} / {}) = {}",
            commas(sums.own.burst),
            commas(sums.own.rate),
            commas(sums.ahead()),
            commas(sums.residual),
            against(bounds.backlog, queue.buffer, "bytes")
        ));
    }
    lines
}

/// Y's second part, on a link that laptops share.
fn blocking(sums: &Sums) -> Option<String> {
    let (which, _) = blocking_by(sums)?;
    Some(format!(
        "    blocking: the larger of {} below and {} best effort = {}, {which}",
        commas(sums.below),
        commas(sums.best_effort_frame),
        commas(sums.under_way())
    ))
}

/// `100,000 − 1,600 = 98,400`; the link's whole rate where nothing is above.
fn residual(link: &LinkWork, sums: &Sums) -> String {
    let left = commas(sums.residual);
    match link.rate_limit - sums.residual {
        0 => left,
        above => format!("{} − {} = {left}", commas(link.rate_limit), commas(above)),
    }
}
