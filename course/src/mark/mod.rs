//! `course mark`: a trainee's answers, row by row, with the slip that gives a wrong one.

pub mod sheet;
pub mod slips;

use crate::arguments::{Arguments, Choice, Command};
use crate::explain::answer_words;
use crate::folder::{read_file, Folder};
use crate::numbers::{commas, counted};
use crate::session::{remark, Session, Step};
use crate::status::{Outcome, Status};
use plain::registry::Answer;
use plain::slips::Slips;
use sheet::{Row, BOUND_NAMES};
use slips::{Expected, Followers, Why};
use std::ops::RangeInclusive;
use std::path::Path;

pub const COMMAND: Command = Command {
    name: "mark",
    usage: "FOLDER ANSWERS [--lines A-B]",
    about: "a trainee's answers marked row by row, with the slip that a wrong one fits",
    help: "\
ANSWERS is a text with a row of numbers, separated by blanks, for each order line; `#` starts a comment:

    line code place link level [delay [backlog [stay]]]

code, place, link and level are those of the answer line. delay (µs) and backlog (bytes) are the bounds, rounded up, at
the queue that decides, with the new flow, or the changed one in place of the old, counted in: for 22 and 23 the failing
queue, for an admission or a change that is done the flow's own queue at its last hop. stay is the longest stay predicted
there for exercise three: the delay bound of that queue with the flows that are held after the last order, 0 where it
then has none. `-` stands for a number that isn't given, and so do a worksheet's blanks, `____`. The answers to releases
and the other refusals have no bounds. 1,980 may be written 1980.

Each row is right or wrong; a line of orders.txt without a row is wrong too, but with --lines A-B only lines A to B are
asked for. A wrong row that is right after the trainee's own earlier rows is named as such. Otherwise, where the
rules with one of the usual slips give the row, the slip is named:
    only the levels below checked; largest frame left on release; first links stored before a refusal at the last;
    source's burst at every hop; fraction dropped; rounding at each hop;
    best-effort frame left out, left out at the last level, or added to the frame below;
    whole thresholds: counted into S without taking the shortest sending time off;
    old share left on a change: the new rate and burst counted beside the old.

Exit status: 0 all rows right; 1 a wrong row, a refused batch or an unreadable file or row; 2 usage.",
    words: 2..=2,
    choices: &[Choice::with("--lines", "A-B")],
    run: mark,
};

fn mark(arguments: &Arguments) -> Result<Outcome, Outcome> {
    let asked = asked(arguments)?;
    let folder = Folder::read(&arguments.words[0])?;
    let rows = rows(&arguments.words[1])?;
    let session = Session::run(&folder)?;
    let asked = within(asked, session.steps.len())?;
    let marks = marks(&session, &rows, &asked);
    let right = marks.iter().filter(|mark| mark.right).count();
    let mut printed = String::new();
    for mark in &marks {
        printed += &format!("line {}: {}\n", commas(mark.line), mark.words);
    }
    printed += &summary(&marks, right);
    let status = if right == marks.len() {
        Status::Fine
    } else {
        Status::Wrong
    };
    Ok(Outcome::fine(printed)
        .with_status(status)
        .with_remark(remark()))
}

/// The lines that are asked for; none named means all.
fn asked(arguments: &Arguments) -> Result<Option<RangeInclusive<u64>>, Outcome> {
    let Some(word) = arguments.value("--lines") else {
        return Ok(None);
    };
    let ends = word.split_once('-');
    let parsed = ends.and_then(|(first, last)| Some(first.parse().ok()?..=last.parse().ok()?));
    let named = parsed.filter(|lines: &RangeInclusive<u64>| !lines.is_empty());
    named.map(Some).ok_or_else(|| {
        Outcome::failed(
            Status::Usage,
            format!("course: --lines: `{word}` isn't as 1-20"),
        )
    })
}

/// The same lines, if orders.txt has them.
fn within(
    asked: Option<RangeInclusive<u64>>,
    count: usize,
) -> Result<RangeInclusive<u64>, Outcome> {
    let all = 1..=count as u64;
    match asked {
        None => Ok(all),
        Some(lines) if all.contains(lines.start()) && all.contains(lines.end()) => Ok(lines),
        Some(lines) => Err(Outcome::failed(
            Status::Usage,
            format!(
                "course: --lines {}-{}: orders.txt has {}",
                lines.start(),
                lines.end(),
                counted(count, "line", "lines")
            ),
        )),
    }
}

fn rows(path: &str) -> Result<Vec<Row>, Outcome> {
    let bytes = read_file(Path::new(path)).map_err(|why| Outcome::failed(Status::Wrong, why))?;
    sheet::read(&String::from_utf8_lossy(&bytes)).map_err(|wrong| {
        let shown = wrong
            .iter()
            .map(|one| format!("{path}:{}:{}: {}\n", one.line, one.column, one.words));
        Outcome::failed(Status::Wrong, shown.collect::<String>())
    })
}

/// One line's mark.
pub struct Mark {
    pub line: u64,
    pub right: bool,
    pub words: String,
    /// The slips that fit.
    pub slips: Vec<&'static str>,
}

/// A mark for each line that is asked for, and for each row.
pub fn marks(session: &Session, rows: &[Row], asked: &RangeInclusive<u64>) -> Vec<Mark> {
    let mut followers = Followers::new(&session.registry);
    let mut marks = Vec::new();
    for step in &session.steps {
        let row = rows.iter().find(|row| row.line == step.number as u64);
        if row.is_some() || asked.contains(&(step.number as u64)) {
            let truth = Expected::of(&step.answer, step.work.as_ref(), &session.registry);
            marks.push(mark_of(step, row, &truth, &followers));
        }
        if let Ok(order) = &step.order {
            followers.follow(order, row, &step.answer);
        }
    }
    let past = rows
        .iter()
        .filter(|row| !(1..=session.steps.len() as u64).contains(&row.line));
    marks.extend(past.map(|row| Mark {
        line: row.line,
        right: false,
        words: format!(
            "wrong: orders.txt has {}",
            counted(session.steps.len(), "line", "lines")
        ),
        slips: Vec::new(),
    }));
    marks
}

fn mark_of(step: &Step, row: Option<&Row>, truth: &Expected, followers: &Followers) -> Mark {
    let mut mark = Mark {
        line: step.number as u64,
        right: false,
        words: "wrong: no row".to_string(),
        slips: Vec::new(),
    };
    let Some(row) = row else {
        return mark;
    };
    if truth.is_met(row) {
        mark.right = true;
        mark.words = "right".to_string();
        return mark;
    }
    mark.words = format!(
        "wrong: {}",
        differences(row, truth, &step.answer).join("; ")
    );
    if let Ok(order) = &step.order {
        match followers.why(order, row, truth) {
            Why::Follows => mark.words += "; right after your earlier rows",
            Why::Slips(names) => {
                mark.words += &format!("; fits the slip: {}", names.join(", or "));
                mark.slips = names;
            }
            Why::Unknown => {}
        }
    }
    mark
}

/// What the row says and what is right, for the answer and for each bound that differs.
fn differences(row: &Row, truth: &Expected, answer: &Answer) -> Vec<String> {
    let mut found = Vec::new();
    if row.answer != truth.answer {
        let [code, slot, link, level] = row.answer;
        let given = Answer {
            code,
            slot,
            link,
            level,
        };
        found.push(format!("{}, not {}", answer_words(answer), short(&given)));
    }
    for (index, wrong) in truth.wrong_bounds(row).into_iter().enumerate() {
        if wrong {
            let given = row.bounds[index].map_or(String::new(), commas);
            let right = truth.bounds[index].map_or("none is worked out".to_string(), commas);
            found.push(format!("{} {right}, not {given}", BOUND_NAMES[index]));
        }
    }
    found
}

/// A row's answer as it stands there.
fn short(answer: &Answer) -> String {
    let Answer {
        code,
        slot,
        link,
        level,
    } = answer;
    format!(
        "{} {} {} {}",
        commas(code),
        commas(slot),
        commas(link),
        commas(level)
    )
}

fn summary(marks: &[Mark], right: usize) -> String {
    let mut text = format!(
        "{} of {} right\n",
        commas(right),
        counted(marks.len(), "row", "rows")
    );
    for (name, _) in Slips::EACH {
        let fitting = marks.iter().filter(|mark| mark.slips.contains(&name));
        let lines: Vec<String> = fitting.map(|mark| commas(mark.line)).collect();
        if !lines.is_empty() {
            text += &format!("slip: {name}: line {}\n", lines.join(", "));
        }
    }
    text
}
