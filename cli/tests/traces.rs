//! `trace` and `run` print what the proved trace program prints, byte by byte.

mod common;

use std::fs;
use std::path::{Path, PathBuf};
use std::process::Command;

use common::{examples, root, status, tally, Folder};

/// The proved trace program, if it is built; `RABTISHU_REQUIRED=1` makes its absence a failure.
fn proved() -> Option<PathBuf> {
    let program = std::env::var_os("RABTISHU_TRACE")
        .map_or_else(|| root().join("crates/trace/out/trace"), PathBuf::from);
    if program.exists() {
        return Some(program);
    }
    assert!(
        std::env::var_os("RABTISHU_REQUIRED").is_none(),
        "no {}",
        program.display()
    );
    eprintln!("traces: the proved trace program is not built, so nothing is held to it");
    None
}

fn proved_trace(program: &Path, folder: &Path) -> Vec<u8> {
    let program = fs::canonicalize(program).expect("the trace program");
    let output = Command::new(program)
        .current_dir(folder)
        .output()
        .expect("it runs");
    output.stdout
}

#[test]
fn examples_by_text_and_by_image() {
    for example in examples() {
        let folder = Folder::new();
        let expected = fs::read(example.join("trace.txt")).expect("trace.txt");
        for name in ["process.vhd", "rows.txt"] {
            folder.put(name, &fs::read(example.join(name)).expect("a file"));
        }
        let traced = folder.run(&["trace", "process.vhd", "rows.txt"]);
        assert_eq!(
            (status(&traced), &traced.stdout),
            (0, &expected),
            "{}",
            example.display()
        );
        assert_eq!(
            status(&folder.run(&["compile", "process.vhd", "-o", "board.image"])),
            0
        );
        let named = folder.run(&["run", "board.image", "rows.txt", "--names", "process.vhd"]);
        assert_eq!(
            (status(&named), &named.stdout),
            (0, &expected),
            "{}",
            example.display()
        );
        let plain = folder.run(&["run", "board.image", "rows.txt"]);
        assert_eq!(
            behind_header(&plain.stdout),
            behind_header(&expected),
            "{}",
            example.display()
        );
        assert!(
            plain.stdout.starts_with(b"cycle wait lines #0"),
            "{}",
            example.display()
        );
    }
}

fn behind_header(trace: &[u8]) -> &[u8] {
    let end = trace
        .iter()
        .position(|&byte| byte == b'\n')
        .expect("a header");
    &trace[end..]
}

/// Numbers that are the same in every run.
struct Random(u64);

impl Random {
    fn below(&mut self, bound: usize) -> usize {
        self.0 = self
            .0
            .wrapping_mul(6_364_136_223_846_793_005)
            .wrapping_add(1_442_695_040_888_963_407);
        (self.0 >> 33) as usize % bound
    }

    fn row(&mut self, inputs: usize) -> String {
        let strange = [
            "",
            " ",
            "-",
            "+1",
            "1  2",
            "x",
            "1\r",
            "2147483648",
            "-2147483649",
            "007",
            "-0",
            "1 ",
            "\u{e4}",
        ];
        if self.below(6) == 0 {
            return strange[self.below(strange.len())].to_string();
        }
        let values = ["0", "1", "-1", "7", "20", "2147483647", "-2147483648"];
        let count = if self.below(8) == 0 {
            self.below(4)
        } else {
            inputs
        };
        Vec::from_iter((0..count).map(|_| values[self.below(values.len())])).join(" ")
    }
}

#[test]
fn random_rows_against_the_proved_program() {
    let Some(program) = proved() else { return };
    let mut random = Random(25);
    for example in examples() {
        let text = fs::read(example.join("process.vhd")).expect("a text");
        let image = rabtishu::compile(&text).expect("accepted");
        let inputs = rabtishu::Image::open(&image).expect("opens").inputs();
        for _ in 0..8 {
            let rows = Vec::from_iter((0..60).map(|_| random.row(inputs))).join("\n");
            let ends = ["", "\n", "\n\n"][random.below(3)];
            let folder = Folder::new();
            folder.put("process.vhd", &text);
            folder.put("rows.txt", format!("{rows}{ends}").as_bytes());
            let traced = folder.run(&["trace", "process.vhd", "rows.txt"]);
            assert_eq!(
                traced.stdout,
                proved_trace(&program, folder.path()),
                "{rows}"
            );
        }
    }
}

#[test]
fn refused_texts_against_the_proved_program() {
    let Some(program) = proved() else { return };
    let cuts = (0..tally().len())
        .step_by(7)
        .map(|cut| tally()[..cut].to_string());
    for text in cuts.chain([" ".repeat(16_385), tally().replace("s + d", "s + '1'")]) {
        let folder = Folder::new();
        folder.put("process.vhd", text.as_bytes());
        folder.put("rows.txt", b"7\n");
        let traced = folder.run(&["trace", "process.vhd", "rows.txt"]);
        assert_eq!(
            (status(&traced), traced.stdout),
            (1, proved_trace(&program, folder.path()))
        );
    }
}

/// 200,000 rows are far more than the trace program takes, and far more than a batch.
#[test]
fn rows_of_any_length() {
    let folder = Folder::new();
    folder.put("process.vhd", tally().as_bytes());
    folder.put("rows.txt", "7\n7\n1\n-5\n".repeat(50_000).as_bytes());
    let traced = folder.run(&["trace", "process.vhd", "rows.txt"]);
    assert_eq!(status(&traced), 0);
    let lines: Vec<&[u8]> = traced
        .stdout
        .split_inclusive(|&byte| byte == b'\n')
        .collect();
    assert_eq!(lines.len(), 200_001);
    let image = rabtishu::compile(tally().as_bytes()).expect("accepted");
    let image = rabtishu::Image::open(&image).expect("opens");
    let (mut state, mut outputs) = (image.fresh(), [0]);
    for (row, line) in lines[1..].iter().enumerate() {
        let lines = image
            .cycle(&mut state, &[[7, 7, 1, -5][row % 4]], &mut outputs)
            .expect("performed");
        let expected = format!("{row} {} {lines} {}\n", state.place(), outputs[0]);
        assert_eq!(*line, expected.as_bytes());
    }
}

/// A run that is kept and taken up again is the whole run.
#[test]
fn kept_states() {
    let folder = Folder::new();
    folder.put("process.vhd", tally().as_bytes());
    folder.put("all.txt", b"7\n7\n1\n-5\n20\n");
    folder.put("first.txt", b"7\n7\n");
    folder.put("rest.txt", b"1\n-5\n20\n");
    folder.run(&["compile", "process.vhd", "-o", "board.image"]);
    let all = folder.run(&["run", "board.image", "all.txt", "--keep", "end.txt"]);
    let first = folder.run(&["run", "board.image", "first.txt", "--keep", "state.txt"]);
    let rest = folder.run(&[
        "run",
        "board.image",
        "rest.txt",
        "--state",
        "state.txt",
        "--keep",
        "state.txt",
    ]);
    assert_eq!((status(&all), status(&first), status(&rest)), (0, 0, 0));
    assert_eq!(folder.get("state.txt"), folder.get("end.txt"));
    let values = |bytes: &[u8]| -> Vec<String> {
        let lines = String::from_utf8(bytes.to_vec()).expect("UTF-8");
        lines
            .lines()
            .skip(1)
            .map(|line| line.split_once(' ').expect("a row").1.to_string())
            .collect()
    };
    assert_eq!(
        values(&all.stdout),
        [values(&first.stdout), values(&rest.stdout)].concat()
    );
}

#[test]
fn names_of_another_text() {
    let folder = Folder::new();
    folder.put("process.vhd", tally().as_bytes());
    folder.put("other.vhd", tally().replace("s < 10", "s < 11").as_bytes());
    folder.put("rows.txt", b"7\n");
    folder.run(&["compile", "process.vhd", "-o", "board.image"]);
    let run = folder.run(&["run", "board.image", "rows.txt", "--names", "other.vhd"]);
    assert_eq!((status(&run), run.stdout), (2, Vec::new()));
}
