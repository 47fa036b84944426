//! The arguments of a command, by the table of commands.

use std::collections::BTreeMap;
use std::ffi::OsString;
use std::ops::RangeInclusive;
use std::path::{Path, PathBuf};

use crate::failure::Failure;

/// An option of a command.
pub struct Choice {
    /// Its name, with its hyphens.
    pub name: &'static str,
    /// What its value is, if it has one.
    pub value: Option<&'static str>,
    /// What it does.
    pub summary: &'static str,
}

/// A command.
pub struct Command {
    /// Its name.
    pub name: &'static str,
    /// Its operands, as help shows them.
    pub usage: &'static str,
    /// How many operands it takes.
    pub operands: RangeInclusive<usize>,
    /// What it does.
    pub summary: &'static str,
    /// Its options.
    pub choices: &'static [Choice],
    /// Performs it.
    pub perform: fn(&Arguments) -> Result<(), Failure>,
}

/// What was given to a command.
pub struct Arguments {
    operands: Vec<PathBuf>,
    chosen: BTreeMap<&'static str, OsString>,
}

impl Arguments {
    /// Reads what stands behind a command's name. `--` ends the options.
    pub fn read(command: &Command, given: &[OsString]) -> Result<Arguments, Failure> {
        let mut arguments = Arguments {
            operands: Vec::new(),
            chosen: BTreeMap::new(),
        };
        let mut rest = given.iter();
        while let Some(word) = rest.next() {
            let shown = word.to_string_lossy();
            if shown == "--" {
                arguments.operands.extend(rest.by_ref().map(PathBuf::from));
            } else if shown == "-" || !shown.starts_with('-') {
                arguments.operands.push(PathBuf::from(word));
            } else {
                arguments.choose(command, &shown, &mut rest)?;
            }
        }
        match command.operands.contains(&arguments.operands.len()) {
            true => Ok(arguments),
            false => Err(usage(command)),
        }
    }

    /// Takes an option, whose value stands behind `=` or in the next word.
    fn choose<'a>(
        &mut self,
        command: &Command,
        word: &str,
        rest: &mut impl Iterator<Item = &'a OsString>,
    ) -> Result<(), Failure> {
        let (name, joined) = match word.split_once('=') {
            Some((name, value)) => (name, Some(OsString::from(value))),
            None => (word, None),
        };
        let Some(choice) = command.choices.iter().find(|choice| choice.name == name) else {
            return Err(Failure::Misuse(format!(
                "{} has no option {name}",
                command.name
            )));
        };
        let value = match (choice.value, joined) {
            (None, None) => OsString::new(),
            (None, Some(_)) => return Err(Failure::Misuse(format!("{name} takes no value"))),
            (Some(_), Some(value)) => value,
            (Some(what), None) => match rest.next() {
                Some(value) => value.clone(),
                None => {
                    return Err(Failure::Misuse(format!(
                        "{name} needs a value: {name} {what}"
                    )))
                }
            },
        };
        match self.chosen.insert(choice.name, value) {
            None => Ok(()),
            Some(_) => Err(Failure::Misuse(format!("{name} is given twice"))),
        }
    }

    /// All operands.
    pub fn operands(&self) -> &[PathBuf] {
        &self.operands
    }

    /// An operand that the command must have.
    pub fn operand(&self, index: usize) -> &Path {
        &self.operands[index]
    }

    /// Whether an option was given.
    pub fn has(&self, name: &str) -> bool {
        self.chosen.contains_key(name)
    }

    /// The value of an option as a path.
    pub fn path(&self, name: &str) -> Option<&Path> {
        self.chosen.get(name).map(Path::new)
    }

    /// The value of an option as a number.
    pub fn number(&self, name: &str) -> Result<Option<usize>, Failure> {
        let Some(value) = self.chosen.get(name) else {
            return Ok(None);
        };
        let shown = value.to_string_lossy();
        match shown.parse() {
            Ok(number) => Ok(Some(number)),
            Err(_) => Err(Failure::Misuse(format!(
                "{name} takes a number, not {shown}"
            ))),
        }
    }
}

fn usage(command: &Command) -> Failure {
    Failure::Misuse(format!(
        "usage: rabtishu {} {}",
        command.name, command.usage
    ))
}
