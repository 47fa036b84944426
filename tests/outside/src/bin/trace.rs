//! What the trace program prints, by this implementation: `trace DIR` for the process in DIR
//! (a missing file is empty).

use reference::trace::trace;
use std::io::Write;
use std::path::Path;
use std::{env, fs, io};

fn main() -> io::Result<()> {
    let folder = env::args().nth(1).unwrap_or_else(|| ".".to_string());
    let read = |name: &str| fs::read(Path::new(&folder).join(name)).unwrap_or_default();
    let printed = trace(&read("process.vhd"), &read("rows.txt"));
    io::stdout().write_all(printed.as_bytes())
}
