//! A comparison of a program with a command of the checker: that it passes the command itself, and finds it spoilt.

use checker::process::Program;
use std::path::Path;

const CHECKER: &str = env!("CARGO_BIN_EXE_checker");

/// The comparison that a command's programs are put to.
pub struct Comparison {
    pub command: &'static str,
    /// What so many lists never met, or the first difference.
    pub run: fn(&Program, u64) -> Result<Vec<&'static str>, String>,
}

impl Comparison {
    pub fn passes_and_meets_every_kind(&self) {
        let program = Program::at(Path::new(CHECKER), &[self.command]).unwrap();
        let missing = (self.run)(&program, 400).unwrap();
        assert_eq!(missing, Vec::<&str>::new());
        let of_few = (self.run)(&program, 1).unwrap();
        assert!(!of_few.is_empty());
    }

    /// What it tells of the command behind a shell's that spoils what it leaves.
    fn told_of(&self, spoilt: &str) -> String {
        let command = format!("\"$0\" {} {spoilt}", self.command);
        let shell = Program::at(Path::new("/bin/sh"), &["-c", &command, CHECKER]).unwrap();
        let outcome = (self.run)(&shell, 100);
        outcome.err().unwrap_or_default()
    }

    /// Each of `printed` spoils what is printed.
    pub fn finds_wrong_programs(&self, printed: &[&str]) {
        assert_eq!(self.told_of(""), "");
        let said = &["2>/dev/null", "&& echo >&2"];
        for (all, what) in [
            (printed, "what is printed differs"),
            (said, "what is said on standard error differs"),
            (&["&& exit 3"], "ended with exit status: 3"),
        ] {
            for spoilt in all {
                let told = self.told_of(spoilt);
                assert!(told.ends_with(&format!(": {what}")), "{spoilt}: {told}");
            }
        }
    }
}
