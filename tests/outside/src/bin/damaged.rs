//! Writes the output of the test program `test_damaged` into the folder of its crate: what this
//! implementation answers on the cases in `data`, into `stdout`.

use reference::damaged::answers;
use std::path::Path;
use std::{env, fs, io, process};

fn main() {
    let arguments: Vec<String> = env::args().skip(1).collect();
    let [folder] = &arguments[..] else {
        eprintln!("usage: damaged FOLDER");
        process::exit(2);
    };
    if let Err(error) = write(Path::new(folder)) {
        eprintln!("{folder}: {error}");
        process::exit(1);
    }
}

fn write(folder: &Path) -> io::Result<()> {
    fs::write(folder.join("stdout"), answers(folder)?)
}
