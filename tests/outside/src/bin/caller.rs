//! Writes the output of the test program `test_caller` into the folder of its crate: what this
//! implementation answers on the texts in `data/texts`, into `stdout`.

use reference::caller::answers;
use std::path::Path;
use std::{env, fs, io, process};

fn main() {
    let arguments: Vec<String> = env::args().skip(1).collect();
    let [folder] = &arguments[..] else {
        eprintln!("usage: caller FOLDER");
        process::exit(2);
    };
    if let Err(error) = write(Path::new(folder)) {
        eprintln!("{folder}: {error}");
        process::exit(1);
    }
}

fn write(folder: &Path) -> io::Result<()> {
    let texts = fs::read(folder.join("data/texts"))?;
    fs::write(folder.join("stdout"), answers(&texts))
}
