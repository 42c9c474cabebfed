//! A hall's orders, one after the other: each with its answer and what was worked out for it.

use crate::check;
use crate::folder::{Folder, ORDERS, TABLE};
use crate::numbers::commas;
use crate::status::{Outcome, Status};
use plain::causes;
use plain::faults::Fault;
use plain::orders::{code_of, examine, Order};
use plain::programs::{answer_line, begin, ANSWER_BYTES};
use plain::registry::{Answer, Registry};
use plain::table::Refusal;
use plain::work::Work;
use proved::Batch;

/// One order line.
pub struct Step {
    /// Its line number.
    pub number: usize,
    /// The line as it stands in the file, without LF.
    pub text: Vec<u8>,
    /// Whether an LF ends it.
    pub ended: bool,
    pub order: Result<Order, Vec<Fault>>,
    pub answer: Answer,
    /// For a registration or a change that was read.
    pub work: Option<Work>,
}

/// All orders of a hall, or the first so many.
pub struct Session {
    pub steps: Vec<Step>,
    /// The registry after the last of them.
    pub registry: Registry,
}

/// What is said on standard error where the answers are the plain version's alone.
pub fn remark() -> &'static str {
    match proved::BATCH {
        Some(_) => "",
        None => {
            "course: the proved library isn't linked: these are the plain version's answers alone"
        }
    }
}

/// Goes through a hall's orders; `visit` sees each with the registry before it and the one after. A batch that is refused, or
/// answered otherwise by the proved library, ends the command.
pub fn walk(folder: &Folder, visit: impl FnMut(Step, &Registry, &Registry)) -> Result<(), Outcome> {
    walk_beside(proved::BATCH, folder, visit)
}

/// The same beside this batch, where there is one.
pub fn walk_beside(
    beside: Option<Batch>,
    folder: &Folder,
    mut visit: impl FnMut(Step, &Registry, &Registry),
) -> Result<(), Outcome> {
    let (mut registry, lines) = match begin(&folder.table, &folder.orders) {
        Ok(begun) => begun,
        Err(refusal) => {
            compare_refusal(beside, folder, refusal)?;
            return Err(refused(folder, refusal));
        }
    };
    let mut answers = Vec::new();
    for (index, line) in lines.iter().enumerate() {
        let before = registry.clone();
        let order = examine(line);
        let (answer, work) = match &order {
            Ok(order) => registry.perform(order),
            Err(faults) => (Answer::plain(code_of(faults)), None),
        };
        answers.push(answer);
        let step = Step {
            number: index + 1,
            text: line.bytes.to_vec(),
            ended: line.ended,
            order,
            answer,
            work,
        };
        visit(step, &before, &registry);
    }
    compare_answers(beside, folder, &answers)
}

impl Session {
    /// The whole batch.
    pub fn run(folder: &Folder) -> Result<Session, Outcome> {
        Session::run_to(folder, None)
    }

    /// The batch up to the order that `--after` names; one past the last is a mistake of the command line.
    pub fn run_after(folder: &Folder, after: Option<u64>) -> Result<Session, Outcome> {
        let session = Session::run_to(folder, after.map(|after| after as usize))?;
        let orders = session.steps.len();
        match after.filter(|&after| after > orders as u64) {
            None => Ok(session),
            Some(after) => Err(Outcome::failed(
                Status::Usage,
                format!(
                    "course: --after {after}: orders.txt has {} lines",
                    commas(orders)
                ),
            )),
        }
    }

    /// The batch up to this order; what comes after it is answered and compared, but not kept.
    pub fn run_to(folder: &Folder, last: Option<usize>) -> Result<Session, Outcome> {
        let (empty, _) = Registry::open(&folder.table);
        let mut session = Session {
            steps: Vec::new(),
            registry: empty,
        };
        walk(folder, |step, _, after| {
            if last.is_none_or(|last| step.number <= last) {
                session.steps.push(step);
                session.registry = after.clone();
            }
        })?;
        Ok(session)
    }
}

/// A refused batch in words.
pub fn refused(folder: &Folder, refusal: Refusal) -> Outcome {
    let Refusal { code, line } = refusal;
    let name = if code == causes::ORDER_SIZE {
        ORDERS
    } else {
        TABLE
    };
    let mut errors = format!(
        "{name}: the batch is refused with {code}: {}\n",
        causes::meaning(code)
    );
    let (of_table, of_orders) = check::mistakes(&folder.table, &folder.orders);
    let found = if name == TABLE { of_table } else { of_orders };
    for mistake in found
        .iter()
        .filter(|mistake| [0, line as usize].contains(&mistake.line))
    {
        errors += &format!("{}\n", mistake.shown(name));
    }
    Outcome::failed(Status::Wrong, errors).with_remark(remark())
}

fn differs(what: String) -> Outcome {
    Outcome::failed(
        Status::Wrong,
        format!(
            "course: the proved library and the plain version differ: {what}.\n\
             One of them is wrong. Nothing is explained; please report the two files."
        ),
    )
}

fn compare_refusal(
    beside: Option<Batch>,
    folder: &Folder,
    refusal: Refusal,
) -> Result<(), Outcome> {
    let Some(batch) = beside else {
        return Ok(());
    };
    let (code, line) = batch(&folder.table, &folder.orders, &mut []);
    if (u64::from(code), u64::from(line)) == (refusal.code, refusal.line) {
        return Ok(());
    }
    let Refusal {
        code: known,
        line: at,
    } = refusal;
    Err(differs(format!(
        "the batch gives {code} {line}, plain {known} {at}"
    )))
}

fn compare_answers(
    beside: Option<Batch>,
    folder: &Folder,
    known: &[Answer],
) -> Result<(), Outcome> {
    let Some(batch) = beside else {
        return Ok(());
    };
    let mut answers = vec![0; ANSWER_BYTES * known.len()];
    let (code, line) = batch(&folder.table, &folder.orders, &mut answers);
    if (code, line as usize) != (0, known.len()) {
        let lines = known.len();
        return Err(differs(format!(
            "the batch gives {code} {line}, plain 0 {lines}"
        )));
    }
    for (index, found) in answers.chunks(ANSWER_BYTES).enumerate() {
        if answer_line(index + 1, &known[index]) != found {
            let number = commas(index + 1);
            let shown = String::from_utf8_lossy(found);
            return Err(differs(format!(
                "line {number}: proved `{}`",
                shown.trim_end()
            )));
        }
    }
    Ok(())
}
