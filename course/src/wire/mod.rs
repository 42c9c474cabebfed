//! `course wire`: exercise three on real queues. The held flows send frames through the kernel's strict-priority queues, in
//! slow motion, and the longest stay in each is set beside its bound.

#[cfg(all(target_os = "linux", target_pointer_width = "64"))]
pub mod kernel;
#[cfg(not(all(target_os = "linux", target_pointer_width = "64")))]
#[path = "no_kernel.rs"]
pub mod kernel;
pub mod link;
pub mod noise;
pub mod plan;
pub mod report;
pub mod roads;
pub mod run;
pub mod scale;
pub mod source;
pub mod trial;
pub mod verdict;

use crate::arguments::{Arguments, Choice, Command};
use crate::folder::Folder;
use crate::numbers::{commas, counted};
use crate::session::remark;
use crate::status::{Outcome, Status};
use crate::traffic::hall::Hall;
use crate::traffic::held;
use crate::traffic::network::Network;
use kernel::Kernel;
use plan::Plan;
use report::Report;
use roads::{roads, Road, MOST_LEVELS};
use scale::{usual, whole_for, Nanos, Scale, MOST_SLOW};
use std::io::{IsTerminal, Write};
use trial::{Break, Found, Trial};
use verdict::timing;

pub const COMMAND: Command = Command {
    name: "wire",
    usage: "FOLDER [--slow N] [--break FLOW,COUNT]",
    about: "sends the held flows' frames through the kernel's own queues (Linux): exercise three",
    help: include_str!("help.txt"),
    words: 1..=1,
    choices: &[
        Choice::with("--slow", "N"),
        Choice::with("--break", "FLOW,COUNT"),
    ],
    run: wire,
};

/// More would show no more, and take long.
const MOST_BEYOND: u64 = 10_000;

fn usage(what: &str) -> Outcome {
    let words = format!("course wire: {what}\n{}", COMMAND.usage_line());
    Outcome::failed(Status::Usage, words)
}

/// What the machine lacks, or what it did to the frames.
fn unable(what: String) -> Outcome {
    Outcome::failed(Status::Usage, format!("course wire: {what}"))
}

fn wire(arguments: &Arguments) -> Result<Outcome, Outcome> {
    let hall = held(&Folder::read(&arguments.words[0])?)?;
    let broken = broken(arguments, &hall)?;
    sendable(&hall)?;
    let roads = roads(&hall);
    let scale = scale(arguments, &roads)?;
    let network = Network::new(&hall.queues, &hall.flows);
    let plans = plan::plans(&hall, &network, scale);
    let trial = Trial {
        hall: &hall,
        network: &network,
        roads: &roads,
        scale,
        broken,
    };
    let found = send(&trial, &plans)?;
    let outcome = Outcome::fine(printed(&trial, &plans, &found));
    let status = timing(&found.seen).status();
    Ok(outcome.with_status(status).with_remark(remark()))
}

/// Sends the frames over the kernel's queues.
fn send(trial: &Trial, plans: &[Plan]) -> Result<Found, Outcome> {
    let beyond = trial.broken.map_or(0, |broken| broken.count);
    let kernel = Kernel::build(trial.hall, trial.roads, trial.scale, beyond);
    let mut kernel = kernel.map_err(unable)?;
    let progress = Progress::new(trial, plans);
    let found = trial.run(&mut kernel, plans, |index| progress.show(index));
    progress.end();
    found.map_err(unable)
}

fn printed(trial: &Trial, plans: &[Plan], found: &Found) -> String {
    let report = Report {
        hall: trial.hall,
        scale: trial.scale,
        found,
    };
    format!(
        "{}\n{}\n\n{}\n{}{}\n",
        summary(trial, plans.len()),
        conforming(trial),
        report.table(),
        report.remarks(),
        report.verdict()
    )
}

/// Whether the held flows can be sent at all.
fn sendable(hall: &Hall) -> Result<(), Outcome> {
    let above = hall.queues.iter().find(|queue| queue.level > MOST_LEVELS);
    let why = match above {
        Some(queue) => format!(
            "link {} has a level {}: the kernel's pfifo_fast has three bands, for levels 1 to {MOST_LEVELS}",
            queue.link, queue.level
        ),
        None if hall.flows.is_empty() => {
            "no flow is held after the orders: nothing can be sent".to_string()
        }
        None => return Ok(()),
    };
    Err(Outcome::failed(
        Status::Wrong,
        format!("course wire: {why}"),
    ))
}

/// The slow motion asked for, or the usual one.
fn scale(arguments: &Arguments, roads: &[Road]) -> Result<Scale, Outcome> {
    let speeds: Vec<u64> = roads.iter().map(|road| road.speed).collect();
    let asked = arguments.number("--slow")?;
    let least = asked.unwrap_or(usual(&speeds));
    if !(1..=MOST_SLOW).contains(&least) {
        let most = commas(MOST_SLOW);
        return Err(usage(&format!("--slow goes from 1 to {most}")));
    }
    match whole_for(&speeds, least) {
        Some(scale) if asked.is_none() || scale.slow == least => Ok(scale),
        Some(scale) => Err(usage(&format!(
            "--slow {least} leaves a link no whole number of bytes per second; {} does",
            scale.slow
        ))),
        None => Err(usage(&format!(
            "--slow {least} leaves a link no whole number of bytes per second"
        ))),
    }
}

/// The flow that is to break its bucket.
fn broken(arguments: &Arguments, hall: &Hall) -> Result<Option<Break>, Outcome> {
    let Some(word) = arguments.value("--break") else {
        return Ok(None);
    };
    let (flow, count) = word.split_once(',').unwrap_or((word, ""));
    let (Ok(number), Ok(count)) = (flow.parse::<u64>(), count.parse::<u64>()) else {
        return Err(usage(&format!(
            "--break {word}: FLOW,COUNT is expected, as 203,8"
        )));
    };
    if !(1..=MOST_BEYOND).contains(&count) {
        let most = commas(MOST_BEYOND);
        return Err(usage(&format!(
            "--break {word}: COUNT goes from 1 to {most}"
        )));
    }
    let held = hall.flows.iter().position(|flow| flow.number == number);
    let flow = held.ok_or_else(|| {
        usage(&format!(
            "--break {word}: flow {number} isn't held after the orders"
        ))
    })?;
    Ok(Some(Break { flow, count }))
}

fn summary(trial: &Trial, rounds: usize) -> String {
    let slow = commas(trial.scale.slow);
    let motion = match trial.scale.slow {
        1 => "at full speed".to_string(),
        _ => format!("in slow motion: a µs of the hall lasts {slow} µs"),
    };
    format!(
        "{} over {}, {}, {motion}",
        counted(trial.hall.flows.len(), "flow", "flows"),
        counted(trial.roads.len(), "link", "links"),
        counted(rounds, "round", "rounds")
    )
}

/// What the promise says of this trial.
fn conforming(trial: &Trial) -> String {
    match trial.broken {
        None => "every source conforms, by the clock".to_string(),
        Some(Break { flow, count }) => format!(
            "flow {} sends {} more than its bucket holds: the promise doesn't speak of this trial",
            trial.hall.flows[flow].number,
            counted(count as usize, "frame", "frames")
        ),
    }
}

/// Shows on a terminal which round it is and how long the rest takes.
struct Progress {
    lengths: Vec<Nanos>,
    terminal: bool,
}

impl Progress {
    fn new(trial: &Trial, plans: &[Plan]) -> Progress {
        let length = |plan: &Plan| plan.length(trial.hall, trial.network, trial.scale);
        Progress {
            lengths: plans.iter().map(length).collect(),
            terminal: std::io::stderr().is_terminal(),
        }
    }

    fn show(&self, index: usize) {
        let left: Nanos = self.lengths[index..].iter().sum();
        let seconds = commas(left.div_ceil(1_000_000_000));
        self.write(&format!(
            "round {} of {}, at most {seconds} s left",
            index + 1,
            self.lengths.len()
        ));
    }

    fn end(&self) {
        self.write("");
        self.write("");
    }

    fn write(&self, words: &str) {
        if self.terminal {
            let _ = write!(std::io::stderr(), "\r{words:60}\r");
        }
    }
}
