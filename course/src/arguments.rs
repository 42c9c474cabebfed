//! The command line: words and options of a command, taken apart by hand.

use crate::status::{Outcome, Status};

/// An option of a command; it takes a word where `value` names one.
pub struct Choice {
    pub name: &'static str,
    pub value: Option<&'static str>,
}

impl Choice {
    pub const fn flag(name: &'static str) -> Choice {
        Choice { name, value: None }
    }

    pub const fn with(name: &'static str, value: &'static str) -> Choice {
        Choice {
            name,
            value: Some(value),
        }
    }
}

/// A command: what it is called with, what its help says, and what it does.
pub struct Command {
    pub name: &'static str,
    /// The words after the command's name, a line for each way to call it.
    pub usage: &'static str,
    /// One line for the list of commands.
    pub about: &'static str,
    /// What `--help` says after the usage line.
    pub help: &'static str,
    /// How many words beside options it takes.
    pub words: std::ops::RangeInclusive<usize>,
    pub choices: &'static [Choice],
    /// What it prints, or why it can't.
    pub run: fn(&Arguments) -> Result<Outcome, Outcome>,
}

/// What a command was called with.
#[derive(Default)]
pub struct Arguments {
    pub words: Vec<String>,
    given: Vec<(&'static str, String)>,
}

impl Arguments {
    pub fn has(&self, name: &str) -> bool {
        self.given.iter().any(|(known, _)| *known == name)
    }

    /// The word given with an option.
    pub fn value(&self, name: &str) -> Option<&str> {
        let found = self.given.iter().find(|(known, _)| *known == name);
        found.map(|(_, value)| value.as_str())
    }

    /// The number given with an option; in words what is wrong with it.
    pub fn number(&self, name: &str) -> Result<Option<u64>, Outcome> {
        let Some(word) = self.value(name) else {
            return Ok(None);
        };
        match word.parse() {
            Ok(number) => Ok(Some(number)),
            Err(_) => Err(Outcome::failed(
                Status::Usage,
                format!("course: {name}: `{word}` is no whole number"),
            )),
        }
    }
}

impl Command {
    /// The ways to call it, as they are typed.
    pub fn calls(&self) -> impl Iterator<Item = String> + '_ {
        let ways = self.usage.lines();
        ways.map(|words| format!("course {} {words}", self.name))
    }

    pub fn usage_line(&self) -> String {
        let calls: Vec<String> = self.calls().collect();
        format!("usage: {}", calls.join("\n       "))
    }

    fn help_text(&self) -> String {
        format!("{}\n\n{}\n", self.usage_line(), self.help.trim_end())
    }

    fn misused(&self, what: String) -> Outcome {
        Outcome::failed(
            Status::Usage,
            format!("course {}: {what}\n{}", self.name, self.usage_line()),
        )
    }

    /// Runs the command on the words after its name.
    pub fn call(&self, given: &[String]) -> Outcome {
        if given.iter().any(|word| word == "--help") {
            return Outcome::fine(self.help_text());
        }
        if given.iter().any(|word| word == "--version") {
            return Outcome::fine(crate::version());
        }
        match self.parse(given) {
            Err(what) => self.misused(what),
            Ok(arguments) => (self.run)(&arguments).unwrap_or_else(|failed| failed),
        }
    }

    fn parse(&self, given: &[String]) -> Result<Arguments, String> {
        let mut arguments = Arguments::default();
        let mut rest = given.iter();
        while let Some(word) = rest.next() {
            if !word.starts_with("--") {
                arguments.words.push(word.clone());
                continue;
            }
            let known = self.choices.iter().find(|choice| choice.name == word);
            let Some(choice) = known else {
                return Err(format!("there is no option {word}"));
            };
            if arguments.has(choice.name) {
                return Err(format!("{word} stands twice"));
            }
            let value = match choice.value {
                None => String::new(),
                Some(name) => match rest.next() {
                    Some(value) if !value.starts_with("--") => value.clone(),
                    _ => return Err(format!("{word} needs {name}")),
                },
            };
            arguments.given.push((choice.name, value));
        }
        let count = arguments.words.len();
        if !self.words.contains(&count) {
            let wanted = if count < *self.words.start() {
                "a word is missing"
            } else {
                "a word too many"
            };
            return Err(wanted.to_string());
        }
        Ok(arguments)
    }
}
