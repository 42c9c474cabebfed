//! `course handover`: the held flows as order lines for the next controller, read back before they are printed.

use crate::arguments::{Arguments, Choice, Command};
use crate::folder::Folder;
use crate::numbers::{commas, counted};
use crate::session::{remark, walk_beside, Session};
use crate::status::{Outcome, Status};
use plain::handover::handover_text;
use plain::registry::{Answer, Registry};
use proved::Batch;

pub const COMMAND: Command = Command {
    name: "handover",
    usage: "FOLDER [--after N]",
    about: "the held flows as order lines, lowest place first, for the controller that takes over",
    help: "\
The flows held after the orders of orders.txt (with --after N after the first N of them), each as the line that registers
it, lowest place first: what `handover` prints for the same orders as calls. A changed flow has its new rate and burst;
refused orders and released flows leave no line. As orders.txt beside the same table.txt the text fills the next controller.

On standard error how many flows and bytes these are, and that the text was read back over the same table: each line was
admitted, at places 1, 2, 3, .. as they come, the same flows are held in the same order, every queue's figures are the
same, and the text written of them is the same. Where the proved library is linked, its batch answered each line so too.
A text that doesn't read back so isn't printed.

Exit status: 0; 1 a refused batch, an unreadable file or a text that doesn't read back; 2 usage.",
    words: 1..=1,
    choices: &[Choice::with("--after", "N")],
    run: handover,
};

fn handover(arguments: &Arguments) -> Result<Outcome, Outcome> {
    let after = arguments.number("--after")?;
    let folder = Folder::read(&arguments.words[0])?;
    let registry = Session::run_after(&folder, after)?.registry;
    let text = handover_text(&registry.slots);
    let errors = read_back(proved::BATCH, &folder, &text, &registry)?;
    let written = Outcome {
        printed: String::from_utf8_lossy(&text).into_owned(),
        errors,
        status: Status::Fine,
    };
    Ok(written.with_remark(remark()))
}

/// What is said of a text that was written from this registry, once it is read over the folder's table beside this batch, where
/// there is one; or how it reads otherwise than it should.
pub fn read_back(
    beside: Option<Batch>,
    folder: &Folder,
    text: &[u8],
    from: &Registry,
) -> Result<String, Outcome> {
    let next = Folder {
        path: folder.path.clone(),
        table: folder.table.clone(),
        orders: text.to_vec(),
    };
    let (mut read, _) = Registry::open(&next.table);
    let mut refused = None;
    walk_beside(beside, &next, |step, _, after| {
        if step.answer != Answer::done(step.number - 1) {
            refused = refused.or(Some(step.number));
        }
        read = after.clone();
    })?;
    match refused {
        Some(line) => Err(differs(&format!("line {} isn't admitted", commas(line)))),
        None => same(&read, from, text).map(|()| said(from, text, beside.is_some())),
    }
}

/// Whether what was read is what was written.
fn same(read: &Registry, from: &Registry, text: &[u8]) -> Result<(), Outcome> {
    if read.held() != from.held() {
        return Err(differs("other flows are held"));
    }
    let mut queues = from.queues.iter();
    if !queues.all(|queue| read.aggregate(queue) == from.aggregate(queue)) {
        return Err(differs("a queue's figures differ"));
    }
    if handover_text(&read.slots) != text {
        return Err(differs("the text written again differs"));
    }
    Ok(())
}

fn differs(what: &str) -> Outcome {
    let words = format!(
        "course: the text doesn't read back as it was written: {what}.\n\
         It isn't printed; please report the two files."
    );
    Outcome::failed(Status::Wrong, words)
}

/// Flows and bytes, and what was found when they were read back.
fn said(from: &Registry, text: &[u8], beside: bool) -> String {
    let flows = from.held().len();
    let places = match flows {
        0 => return "no flow is held: the text is empty\n".to_string(),
        1 => "at place 1".to_string(),
        _ => format!("at places 1 to {flows}"),
    };
    let library = match beside {
        false => "",
        true => "the proved library's batch answers the same\n",
    };
    format!(
        "{}, {} bytes\n\
         read back over the same table: each line admitted, {places}; the same flows in the same order, the same figures\n\
         {library}",
        counted(flows, "flow", "flows"),
        commas(text.len())
    )
}
