//! Prints the verdict on texts: `number place token`, or `0` for an accepted one. For a folder, one
//! line for each of its files in the order of their names; with `-n` the name stands before it.

use reference::{lexer, verdict};
use std::path::{Path, PathBuf};
use std::{env, fs, io, process};

fn main() {
    let arguments: Vec<String> = env::args().skip(1).collect();
    let (names, path) = match &arguments[..] {
        [path] => (false, path),
        [flag, path] if flag == "-n" => (true, path),
        _ => {
            eprintln!("usage: answers [-n] FILE-OR-FOLDER");
            process::exit(2);
        }
    };
    if let Err(error) = print(Path::new(path), names) {
        eprintln!("{path}: {error}");
        process::exit(1);
    }
}

fn print(path: &Path, names: bool) -> io::Result<()> {
    for file in files(path)? {
        let text = fs::read(&file)?;
        if names {
            let name = file.file_name().unwrap_or_default();
            print!("{} ", name.to_string_lossy());
        }
        println!("{}", line(&text));
    }
    Ok(())
}

/// The file itself, or the files of the folder in the order of their names.
fn files(path: &Path) -> io::Result<Vec<PathBuf>> {
    if !path.is_dir() {
        return Ok(vec![path.to_path_buf()]);
    }
    let entries: io::Result<Vec<_>> = fs::read_dir(path)?.collect();
    let mut files: Vec<PathBuf> = entries?.iter().map(|entry| entry.path()).collect();
    files.retain(|file| file.is_file());
    files.sort();
    Ok(files)
}

fn line(text: &[u8]) -> String {
    match verdict::verdict(text) {
        Ok(_) => "0".to_string(),
        Err(refused) => {
            let token = lexer::token_at(text, refused.place as usize);
            let token = String::from_utf8_lossy(token);
            let line = format!("{} {} {token}", refused.number, refused.place);
            line.trim_end().to_string()
        }
    }
}
