//! `course bounds`: every queue's figures and bounds, and every flow's end-to-end bound.

use crate::arguments::{Arguments, Choice, Command};
use crate::folder::Folder;
use crate::numbers::{commas, counted, per_cent};
use crate::session::{remark, Session};
use crate::status::Outcome;
use crate::titles::{blocking_by, link_title};
use plain::formula::Sums;
use plain::orders::Flow;
use plain::registry::{path_fixed_delays, path_thresholds, Registry, HOP_POOL, SLOTS};
use plain::table::{Of, ENTRIES};
use plain::work::{LevelWork, LinkWork};

pub const COMMAND: Command = Command {
    name: "bounds",
    usage: "FOLDER [--after N]",
    about: "every queue's figures and bounds, every flow's end-to-end bound",
    help: "\
After the orders of orders.txt (with --after N after the first N of them): for each link its rate sum against its
speed, for each queue rate sum, burst sum and largest frame, Res, Y, the delay bound against the threshold (µs), the
backlog bound against the buffer (bytes), each with its per cent, rounded up. An empty queue has no bound. A link that
laptops share has a column more, blocking, counted into Y: the larger of the largest frame below and the best-effort
frame (both: they are as long), and which it was. For each flow the sum of the delay bounds of its queues, the sum of
their thresholds, which is what is promised, and its deadline (µs). Where a held flow's path has cables that take time,
their fixed delays stand beside and are counted into both sums.

Exit status: 0; 1 a refused batch or an unreadable file; 2 usage.",
    words: 1..=1,
    choices: &[Choice::with("--after", "N")],
    run: bounds,
};

fn bounds(arguments: &Arguments) -> Result<Outcome, Outcome> {
    let after = arguments.number("--after")?;
    let folder = Folder::read(&arguments.words[0])?;
    let session = Session::run_after(&folder, after)?;
    let printed = report(&session.registry, session.steps.len());
    Ok(Outcome::fine(printed).with_remark(remark()))
}

/// Each link of the registry's table over its held flows.
pub fn links(registry: &Registry) -> Vec<LinkWork> {
    let mut numbers: Vec<u64> = registry.queues.iter().map(|queue| queue.link).collect();
    numbers.dedup();
    numbers
        .iter()
        .map(|&link| registry.link_work(link, None))
        .collect()
}

/// The sum of the delay bounds of a held flow's queues, µs.
pub fn end_to_end(links: &[LinkWork], flow: &Flow) -> u128 {
    let levels = links.iter().flat_map(|link| &link.levels);
    levels
        .filter(|level| flow.hops.contains(&level.queue.hop()))
        .filter_map(|level| level.bounds)
        .map(|bounds| bounds.delay)
        .sum()
}

/// Figures and bounds of every queue and flow, after so many orders.
pub fn report(registry: &Registry, orders: usize) -> String {
    let links = links(registry);
    let held = registry.held();
    let hops: usize = held.iter().map(|flow| flow.hops.len()).sum();
    let mut text = format!(
        "after {}: {} of {SLOTS} places held, {} of {} hop entries\n",
        counted(orders, "order", "orders"),
        held.len(),
        commas(hops),
        commas(HOP_POOL)
    );
    for link in &links {
        text += &link_report(link);
    }
    text + &flow_report(registry, &links)
}

fn link_report(link: &LinkWork) -> String {
    let Some(first) = link.levels.first() else {
        return String::new();
    };
    let shared = first.queue.best_effort_frame > 0;
    let mut rows = vec![level_heads(shared)];
    rows.extend(link.levels.iter().map(|level| level_row(level, shared)));
    format!(
        "\n{}; rates {} of {} kbit/s, {} %\n{}",
        link_title(&first.queue),
        commas(link.rate_sum),
        commas(link.rate_limit),
        per_cent(link.rate_sum, link.rate_limit),
        aligned(&rows)
    )
}

/// Fields of a queue beside threshold and buffer, which stand with their bounds.
fn further() -> impl Iterator<Item = &'static plain::table::Entry> {
    let paired = ["threshold", "buffer"];
    ENTRIES
        .iter()
        .filter(move |entry| entry.of == Of::Queue && !paired.contains(&entry.field.name))
}

/// A link that laptops share has a column more.
fn level_heads(shared: bool) -> Vec<String> {
    let heads = match shared {
        false => "level rate burst frame Res Y delay threshold % backlog buffer %",
        true => "level rate burst frame Res blocking Y delay threshold % backlog buffer %",
    };
    let further = further().map(|entry| entry.field.name.to_string());
    heads
        .split(' ')
        .map(str::to_string)
        .chain(further)
        .collect()
}

fn level_row(level: &LevelWork, shared: bool) -> Vec<String> {
    let (queue, figures) = (&level.queue, &level.figures);
    let none = || "-".to_string();
    let bound = |value: &dyn Fn(&plain::work::Bounds) -> String| {
        level.bounds.as_ref().map_or_else(none, value)
    };
    let mut row = vec![
        queue.level.to_string(),
        commas(figures.rate),
        commas(figures.burst),
        commas(figures.frame),
        bound(&|bounds| commas(bounds.sums.residual)),
    ];
    row.extend(shared.then(|| bound(&|bounds| blocking(&bounds.sums))));
    row.extend([
        bound(&|bounds| commas(bounds.sums.ahead())),
        bound(&|bounds| commas(bounds.delay)),
        commas(queue.threshold),
        bound(&|bounds| per_cent(bounds.delay, u128::from(queue.threshold))),
        bound(&|bounds| commas(bounds.backlog)),
        commas(queue.buffer),
        bound(&|bounds| per_cent(bounds.backlog, u128::from(queue.buffer))),
    ]);
    row.extend(further().map(|entry| commas((entry.get)(queue))));
    row
}

/// `1,542 best-effort`.
fn blocking(sums: &Sums) -> String {
    let (_, which) = blocking_by(sums).unwrap_or_default();
    format!("{} {which}", commas(sums.under_way()))
}

fn flow_report(registry: &Registry, links: &[LinkWork]) -> String {
    let cables = |flow: &Flow| path_fixed_delays(&registry.queues, &flow.hops);
    let any = registry.held().into_iter().any(|flow| cables(flow) > 0);
    let heads = match any {
        false => "place|flow|hops|bounds|thresholds|deadline|%",
        true => "place|flow|hops|cables|bounds + cables|thresholds + cables|deadline|%",
    };
    let mut rows = vec![heads.split('|').map(str::to_string).collect()];
    for (index, slot) in registry.slots.iter().enumerate() {
        let Some(flow) = slot else { continue };
        let bound = end_to_end(links, flow) + cables(flow);
        let promised = path_thresholds(&registry.queues, &flow.hops) + cables(flow);
        let mut row = vec![
            (index + 1).to_string(),
            flow.number.to_string(),
            flow.hops.len().to_string(),
        ];
        row.extend(any.then(|| commas(cables(flow))));
        row.extend([
            commas(bound),
            commas(promised),
            commas(flow.deadline),
            per_cent(bound, u128::from(flow.deadline)),
        ]);
        rows.push(row);
    }
    if rows.len() == 1 {
        return "\nno flow is held\n".to_string();
    }
    format!("\nflows, end to end in µs\n{}", aligned(&rows))
}

/// Rows of words, each column as wide as its widest word, from the right.
pub fn aligned(rows: &[Vec<String>]) -> String {
    let width = |column: usize| {
        let words = rows.iter().filter_map(|row| row.get(column));
        words.map(|word| word.chars().count()).max().unwrap_or(0)
    };
    let columns = rows.iter().map(Vec::len).max().unwrap_or(0);
    let widths: Vec<usize> = (0..columns).map(width).collect();
    let mut text = String::new();
    for row in rows {
        for (word, width) in row.iter().zip(&widths) {
            text += &format!("  {word:>width$}");
        }
        text.push('\n');
    }
    text
}
