//! Why a command was not done.

use std::fmt::{Display, Formatter, Result};
use std::io::{self, Write};

use crate::diagnostic::Diagnostic;

/// What ends a command before it is done.
#[derive(Debug)]
pub enum Failure {
    /// The arguments make no command.
    Misuse(String),
    /// A file cannot be read or written.
    Trouble(String),
    /// A text, an image or a state was refused.
    Refused(Box<Diagnostic>),
    /// Refused, and told already.
    Told,
    /// Trouble with a file, and told already.
    Troubled,
    /// Whoever read the output has closed it: nothing is left to do or to say.
    Closed,
}

impl Failure {
    /// The exit status.
    pub fn status(&self) -> u8 {
        match self {
            Failure::Closed => 0,
            Failure::Refused(_) | Failure::Told => 1,
            Failure::Misuse(_) | Failure::Trouble(_) | Failure::Troubled => 2,
        }
    }

    /// Says why. A standard error that is closed is no reason to fail again.
    pub fn tell(&self) {
        let _ = io::stderr().write_all(self.to_string().as_bytes());
    }
}

impl Display for Failure {
    fn fmt(&self, f: &mut Formatter) -> Result {
        match self {
            Failure::Misuse(what) => {
                writeln!(
                    f,
                    "rabtishu: {what}\nrabtishu --help shows what can be asked for."
                )
            }
            Failure::Trouble(what) => writeln!(f, "rabtishu: {what}"),
            Failure::Refused(diagnostic) => write!(f, "{diagnostic}"),
            Failure::Told | Failure::Troubled | Failure::Closed => Ok(()),
        }
    }
}
