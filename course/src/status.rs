//! How a command ends.

use std::process::ExitCode;

/// The program's exit status.
#[derive(Clone, Copy, Debug, PartialEq, Eq)]
pub enum Status {
    Fine = 0,
    /// A refused batch, unreadable input, a typing mistake in `check`, a wrong row in `mark`.
    Wrong = 1,
    /// The command line can't be understood, or the machine can't do what it asks for.
    Usage = 2,
    /// A source doesn't conform to its token bucket.
    Unconforming = 3,
    /// A frame late or a buffer exceeded.
    Late = 4,
}

impl From<Status> for ExitCode {
    fn from(status: Status) -> ExitCode {
        ExitCode::from(status as u8)
    }
}

/// What a command leaves: text for standard output, text for standard error, and its status.
#[derive(Debug)]
pub struct Outcome {
    pub printed: String,
    pub errors: String,
    pub status: Status,
}

impl Outcome {
    pub fn fine(printed: String) -> Outcome {
        Outcome {
            printed,
            errors: String::new(),
            status: Status::Fine,
        }
    }

    /// Nothing but words on standard error.
    pub fn failed(status: Status, errors: impl Into<String>) -> Outcome {
        let mut errors = errors.into();
        if !errors.ends_with('\n') {
            errors.push('\n');
        }
        Outcome {
            printed: String::new(),
            errors,
            status,
        }
    }

    pub fn with_status(self, status: Status) -> Outcome {
        Outcome { status, ..self }
    }

    /// A remark before the other words on standard error.
    pub fn with_remark(mut self, remark: &str) -> Outcome {
        if !remark.is_empty() {
            self.errors = format!("{remark}\n{}", self.errors);
        }
        self
    }
}
