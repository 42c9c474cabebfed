//! The program `course`.

use course::status::Status;
use std::io::{ErrorKind, Write};
use std::process::ExitCode;

fn main() -> ExitCode {
    let words: Vec<String> = std::env::args_os()
        .skip(1)
        .map(|word| word.to_string_lossy().into_owned())
        .collect();
    let outcome = course::run(&words);
    let mut out = std::io::stdout().lock();
    let written = out
        .write_all(outcome.printed.as_bytes())
        .and_then(|()| out.flush());
    // Nobody can be told where standard error is closed.
    let _ = std::io::stderr().write_all(outcome.errors.as_bytes());
    if let Err(error) = written {
        // A reader who has seen enough, as `head`, closes the pipe.
        if error.kind() == ErrorKind::BrokenPipe {
            return outcome.status.into();
        }
        let _ = writeln!(std::io::stderr(), "course: standard output: {error}");
        return Status::Wrong.into();
    }
    outcome.status.into()
}
