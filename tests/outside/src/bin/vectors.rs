//! Writes the cases of the test program `test_vectors` and the output that they must give into the folder
//! of its crate: the names of the files and folders into `args`, the cases into `data`, the output
//! into `stdout`. The folders of examples stand in `data` already.

use reference::generate;
use reference::vectors::{answers, cases, folder_answer, folders};
use std::path::Path;
use std::{env, fs, io, process};

fn main() {
    let arguments: Vec<String> = env::args().skip(1).collect();
    let [folder] = &arguments[..] else {
        eprintln!("usage: vectors FOLDER");
        process::exit(2);
    };
    if let Err(error) = write(Path::new(folder)) {
        eprintln!("{folder}: {error}");
        process::exit(1);
    }
}

fn write(folder: &Path) -> io::Result<()> {
    let mut names = String::new();
    let mut output = String::new();
    let data = folder.join("data");
    for (name, bytes) in generate::vectors::files() {
        output += &answers(&name, &cases(&bytes));
        fs::write(data.join(&name), bytes)?;
        names += &format!("{name}\n");
    }
    for name in folders(&data)? {
        output += &folder_answer(&data, &name)?;
        names += &format!("{name}\n");
    }
    fs::write(folder.join("args"), names)?;
    fs::write(folder.join("stdout"), output)
}
