//! The processes of examples/, as the tests of pictures use them.

#![allow(dead_code)]

use rabtishu_cli::beats::{beats, Beat};
use rabtishu_cli::signals::Signals;
use std::fs;
use std::path::{Path, PathBuf};

/// A folder of examples/.
pub struct Process {
    pub name: String,
    pub text: Vec<u8>,
    pub rows: Vec<u8>,
    pub trace: String,
}

/// What the trace has for a row: its wait, lines and outputs, or its refusal.
pub type Traced = Result<(i64, i64, Vec<i64>), i64>;

pub fn examples() -> Vec<Process> {
    let folder = Path::new(env!("CARGO_MANIFEST_DIR")).join("../examples");
    let entries = fs::read_dir(folder).expect("examples/");
    let mut folders: Vec<PathBuf> = entries
        .map(|entry| entry.expect("a folder").path())
        .collect();
    folders.sort();
    let all: Vec<Process> = folders.iter().map(|folder| process(folder)).collect();
    assert!(all.len() >= 12, "examples are missing");
    all
}

pub fn example(name: &str) -> Process {
    let mut all = examples().into_iter();
    all.find(|process| process.name == name)
        .expect("an example")
}

fn process(folder: &Path) -> Process {
    let read = |file: &str| fs::read(folder.join(file)).expect("a file of an example");
    Process {
        name: folder.file_name().unwrap().to_str().unwrap().to_string(),
        text: read("process.vhd"),
        rows: read("rows.txt"),
        trace: String::from_utf8(read("trace.txt")).expect("a trace"),
    }
}

impl Process {
    pub fn image(&self) -> Vec<u8> {
        rabtishu::compile(&self.text).expect("examples are accepted")
    }

    pub fn names(&self) -> Signals {
        Signals::of_text(&self.text)
    }

    pub fn beats(&self) -> Vec<Beat> {
        let bytes = self.image();
        let image = rabtishu::Image::open(&bytes).expect("an image");
        beats(image, image.fresh(), &self.rows).collect()
    }

    /// The lines of the stored trace behind its header.
    pub fn traced(&self) -> Vec<Traced> {
        let lines = self.trace.lines().skip(1);
        lines.map(traced).collect()
    }
}

fn traced(line: &str) -> Traced {
    let words: Vec<&str> = line.split(' ').collect();
    let number = |word: &&str| word.parse::<i64>().expect("a number");
    match words[1] {
        "refused" => Err(number(&words[2])),
        _ => {
            let outputs = words[3..].iter().map(number).collect();
            Ok((number(&words[1]), number(&words[2]), outputs))
        }
    }
}

/// A process with these ports besides the clock, these variables and this body.
pub fn text(ports: &str, variables: &str, body: &str) -> String {
    format!(
        "entity t is port ( clk : in std_logic; {ports} ); end t;\n\
         architecture a of t is begin process\n{variables}\nbegin\n{body}\n\
         wait until clk = '1';\nend process; end a;\n"
    )
}

/// Compares with a stored file; with RABTISHU_WRITE set the file is written instead.
pub fn golden(file: &str, found: &str) {
    let path = Path::new(env!("CARGO_MANIFEST_DIR"))
        .join("tests/golden")
        .join(file);
    if std::env::var_os("RABTISHU_WRITE").is_some() {
        fs::write(&path, found).expect("a golden file");
    }
    let stored = fs::read_to_string(&path).expect("a golden file");
    assert_eq!(found, stored, "{file}; RABTISHU_WRITE=1 writes it anew");
}
