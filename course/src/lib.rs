//! The course's tool: what is wrong with a hall's two files, why each order is answered as it is, every queue's bounds,
//! the held flows as order lines, a trainee's answers marked, traffic on document 01's run and on the kernel's own queues.

pub mod arguments;
pub mod bounds;
pub mod check;
pub mod explain;
pub mod folder;
pub mod hall;
pub mod handover;
pub mod mark;
pub mod numbers;
pub mod rows;
pub mod session;
pub mod status;
pub mod titles;
pub mod traffic;
pub mod wire;

use arguments::Command;
use status::{Outcome, Status};

/// All commands, in the order of the help.
pub const COMMANDS: &[&Command] = &[
    &check::COMMAND,
    &explain::COMMAND,
    &bounds::COMMAND,
    &handover::COMMAND,
    &mark::COMMAND,
    &hall::COMMAND,
    &traffic::COMMAND,
    &wire::COMMAND,
];

pub fn version() -> String {
    let linked = match proved::BATCH {
        Some(_) => "with the proved library",
        None => "the plain version alone: the proved library isn't linked",
    };
    format!("course {} ({linked})\n", env!("CARGO_PKG_VERSION"))
}

fn help() -> String {
    let mut text = String::from("usage: course COMMAND ..\n\n");
    for command in COMMANDS {
        let calls: String = command.calls().map(|call| format!("  {call}\n")).collect();
        text += &format!("{calls}      {}\n", command.about);
    }
    text + "\n`course COMMAND --help` says more. FOLDER holds table.txt and orders.txt.\n\
            Exit status: 0 fine; 1 a refused batch, unreadable input, a mistake found by `check`, a wrong row in `mark`;\n\
            2 usage, in `wire` also a machine that can't; 3 a source doesn't conform; 4 a frame late or a buffer exceeded.\n"
}

/// What the program does with these words.
pub fn run(words: &[String]) -> Outcome {
    let Some(first) = words.first() else {
        return Outcome::failed(Status::Usage, help());
    };
    match first.as_str() {
        "--help" | "help" => Outcome::fine(help()),
        "--version" => Outcome::fine(version()),
        name => match COMMANDS.iter().find(|command| command.name == name) {
            Some(command) => command.call(&words[1..]),
            None => Outcome::failed(
                Status::Usage,
                format!("course: there is no command {name}\n{}", help()),
            ),
        },
    }
}
