//! `course traffic`: exercises three and four. Reads what the sources send, tells whether they
//! conform, and runs document 01's network.

pub mod conform;
pub mod figures;
pub mod frames;
pub mod gates;
pub mod hall;
mod job;
mod marks;
pub mod network;
pub mod page;
pub mod report;
pub mod run;
pub mod schedule;
pub mod search;
mod search_command;
pub mod sends;
pub mod slots;
pub mod trace;
mod tried;
pub mod watch;
mod words;

use crate::arguments::{Arguments, Choice, Command};
use crate::folder::{read_file, Folder};
use crate::session::{remark, Session};
use crate::status::{Outcome, Status};
use gates::Gates;
use hall::Hall;
use halls::rng::Rng;
use job::{Chosen, Job};
use run::Arrivals;
use search_command::Found;
use std::path::Path;

pub const COMMAND: Command = Command {
    name: "traffic",
    usage: "FOLDER SENDS [--page FILE.html] [--trace FILE.tsv] [--arrivals first|last|SEED] [--anyway | --gates]\n\
            FOLDER --search [--seconds S] [--tries N] [--seed SEED] [--queue LINK.LEVEL] [--out SENDS]",
    about: "puts traffic on the flows held after the orders: exercises three and four",
    help: include_str!("help.txt"),
    words: 1..=2,
    choices: &[
        Choice::with("--page", "FILE.html"),
        Choice::with("--from", "INSTANT"),
        Choice::with("--to", "INSTANT"),
        Choice::with("--trace", "FILE.tsv"),
        Choice::with("--arrivals", "first, last or a seed"),
        Choice::flag("--anyway"),
        Choice::flag("--gates"),
        Choice::flag("--search"),
        Choice::with("--seconds", "SECONDS"),
        Choice::with("--tries", "COUNT"),
        Choice::with("--seed", "SEED"),
        Choice::with("--queue", "LINK.LEVEL"),
        Choice::with("--out", "SENDS"),
    ],
    run: traffic,
};

fn traffic(arguments: &Arguments) -> Result<Outcome, Outcome> {
    let outcome = prepare(arguments)?.run().unwrap_or_else(|failed| failed);
    let of_gates = match arguments.has("--gates") {
        true => gates::remark(),
        false => "",
    };
    Ok(outcome.with_remark(of_gates).with_remark(remark()))
}

fn usage(what: &str) -> Outcome {
    Outcome::failed(
        Status::Usage,
        format!("course traffic: {what}\n{}", COMMAND.usage_line()),
    )
}

fn unreadable(what: String) -> Outcome {
    Outcome::failed(Status::Wrong, what)
}

/// Options that need others, and SENDS or a search.
fn judge(arguments: &Arguments) -> Result<(), Outcome> {
    let only = |names: &[&str], with: &str| match names.iter().find(|name| arguments.has(name)) {
        Some(name) => Err(usage(&format!("{name} goes with {with}"))),
        None => Ok(()),
    };
    match (arguments.has("--search"), arguments.words.len()) {
        (true, 2) => return Err(usage("--search writes SENDS, it reads none")),
        (false, 1) => return Err(usage("SENDS is missing")),
        (true, _) => only(&["--anyway", "--gates"], "SENDS")?,
        (false, _) => only(
            &["--seconds", "--tries", "--seed", "--queue", "--out"],
            "--search",
        )?,
    }
    if arguments.has("--anyway") && arguments.has("--gates") {
        let why = "--anyway sends what --gates holds back: one of them at a time";
        return Err(usage(why));
    }
    match arguments.has("--page") {
        true => Ok(()),
        false => only(&["--from", "--to"], "--page"),
    }
}

fn prepare(arguments: &Arguments) -> Result<Job<'_>, Outcome> {
    judge(arguments)?;
    let arrivals = arrivals(arguments)?;
    let shown = Chosen::of(arguments)?;
    let hall = held(&Folder::read(&arguments.words[0])?)?;
    let Found {
        name,
        text,
        preface,
    } = match arguments.has("--search") {
        true => search_command::command(arguments, &hall, &arrivals)?,
        false => given(&arguments.words[1])?,
    };
    let mut sends = sends::read(&text, &hall.flows, &hall.queues)
        .and_then(|lines| sends::expand(&lines, &hall.flows, hall.span()))
        .map_err(|mistake| unreadable(format!("{name}:{mistake}")))?;
    let mut gates = None;
    if arguments.has("--gates") {
        let beside = proved::gate::CALLS;
        let (passed, counted) = gates::through(beside.as_ref(), &hall.flows, &sends.frames)?;
        sends.frames = passed;
        gates = Some(counted);
    }
    let of_gates = |gates: &Gates| format!("{}\n", gates.report());
    Ok(Job {
        arguments,
        hall,
        arrivals,
        name,
        sends,
        preface: gates.as_ref().map_or(preface, of_gates),
        gates,
        shown,
    })
}

/// The SENDS of a file.
fn given(name: &str) -> Result<Found, Outcome> {
    let bytes = read_file(Path::new(name)).map_err(unreadable)?;
    Ok(Found {
        name: name.to_string(),
        text: String::from_utf8_lossy(&bytes).into_owned(),
        preface: String::new(),
    })
}

fn arrivals(arguments: &Arguments) -> Result<Arrivals, Outcome> {
    match arguments.value("--arrivals") {
        None | Some("first") => Ok(Arrivals::ForwardedFirst),
        Some("last") => Ok(Arrivals::ForwardedLast),
        Some(seed) => match seed.parse() {
            Ok(seed) => Ok(Arrivals::Shuffled(Rng::new(seed, 0))),
            Err(_) => Err(usage("--arrivals takes `first`, `last` or a whole number")),
        },
    }
}

/// The hall with the flows held after its orders.
pub fn held(folder: &Folder) -> Result<Hall, Outcome> {
    let registry = Session::run(folder)?.registry;
    let flows = registry.held().into_iter().cloned().collect();
    Ok(Hall::new(registry.queues, flows))
}
