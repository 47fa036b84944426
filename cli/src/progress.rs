//! A line on the terminal while something takes more than a second.

use std::io::{self, IsTerminal, Write};
use std::time::{Duration, Instant};

/// When the first line is shown, and how long it stands before the next.
const FIRST: Duration = Duration::from_secs(1);
const NEXT: Duration = Duration::from_millis(200);

/// What was done so far; shown only where standard error is a terminal.
pub struct Progress {
    due: Option<Instant>,
    shown: bool,
}

impl Progress {
    /// Begins to measure.
    pub fn start() -> Progress {
        let due = io::stderr().is_terminal().then(|| Instant::now() + FIRST);
        Progress { due, shown: false }
    }

    /// Shows how far the work is, if it is time to.
    pub fn at(&mut self, rows: u64, bytes: u64, all: Option<u64>) {
        let now = Instant::now();
        if self.due.is_some_and(|due| now >= due) {
            self.due = Some(now + NEXT);
            self.shown = true;
            let _ = write!(io::stderr(), "\r{}", line(rows, bytes, all));
        }
    }

    /// Takes the line away.
    pub fn end(&mut self) {
        if self.shown {
            let _ = write!(io::stderr(), "\r{:60}\r", "");
        }
    }
}

fn line(rows: u64, bytes: u64, all: Option<u64>) -> String {
    let part = match all {
        Some(all) if all > 0 => format!(", {} %", 100 * bytes.min(all) / all),
        _ => String::new(),
    };
    format!("{:60}", format!("rabtishu: {rows} rows{part}"))
}
