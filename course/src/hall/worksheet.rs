//! The trainee's sheet of a made hall, and its solution.

use crate::explain::explained;
use crate::folder::Folder;
use crate::mark::slips::Expected;
use crate::session::{walk, Session};
use crate::status::Outcome;
use crate::titles::{link_title, named};
use plain::table::{read_table, Of, Queue, ENTRIES};

/// The queues in words, and each order line with a row to fill in.
pub fn worksheet(folder: &Folder, seed: u64, first_part: usize) -> Result<String, Outcome> {
    let session = Session::run(folder)?;
    let mut text = format!(
        "# A bottling hall (seed {seed}). Below each order line fill in its row: line, code, place, link, level and,\n\
         # where they are worked out, delay and backlog (`course mark --help` says at which queue).\n#\n\
         # The queues\n"
    );
    text += &queues(folder);
    text += &format!("#\n# Exercise one: orders 1 to {first_part}\n");
    for step in &session.steps {
        if step.number == first_part + 1 {
            text += &format!(
                "#\n# Exercise two: orders {} to {}\n",
                step.number,
                session.steps.len()
            );
        }
        let line = String::from_utf8_lossy(&step.text);
        text += &format!(
            "#{line}\n{:>6} ___ ____ ____ __ ______ ________\n",
            step.number
        );
    }
    Ok(text)
}

fn queues(folder: &Folder) -> String {
    let queues = read_table(&folder.table).unwrap_or_default();
    let mut text = String::new();
    for queue in &queues {
        if queue.level == 1 {
            text += &format!("# {}\n", link_title(queue));
        }
        text += &format!("#     level {}: {}\n", queue.level, limits(queue));
    }
    text
}

fn limits(queue: &Queue) -> String {
    let own = ENTRIES.iter().filter(|entry| entry.of == Of::Queue);
    let numbers: Vec<String> = own
        .map(|entry| named(&entry.field, (entry.get)(queue)))
        .collect();
    numbers.join(", ")
}

/// The right rows, as `mark` reads them.
pub fn answers(session: &Session) -> String {
    let mut text = String::from("#  line code place link level  delay  backlog   stay\n");
    for step in &session.steps {
        let truth = Expected::of(&step.answer, step.work.as_ref(), &session.registry);
        text += &row(step.number, &truth);
    }
    text
}

/// One row; bounds that aren't worked out are left out.
pub fn row(line: usize, expected: &Expected) -> String {
    let [code, place, link, level] = expected.answer;
    let mut text = format!("{line:>7} {code:>4} {place:>5} {link:>4} {level:>5}");
    for (bound, width) in expected.bounds.iter().zip([6, 8, 6]) {
        if let Some(value) = bound {
            text += &format!(" {value:>width$}");
        }
    }
    text + "\n"
}

/// Every order explained.
pub fn explanation(folder: &Folder) -> Result<String, Outcome> {
    let mut text = String::new();
    walk(folder, |step, before, _| {
        text += &format!("{}\n", explained(&step, before))
    })?;
    Ok(text)
}
