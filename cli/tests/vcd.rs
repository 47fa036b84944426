//! Value change dumps, read back by a reader of their own and compared with traces and cycles.

mod processes;

use processes::{example, examples, golden, Process};
use rabtishu::Image;
use rabtishu_cli::beats::beats;
use rabtishu_cli::rows::{self, split};
use rabtishu_cli::signals::Signals;
use rabtishu_cli::vcd::Dump;
use std::collections::BTreeMap;
use std::process::Command;

fn dump(text: &[u8], rows: &[u8]) -> String {
    let bytes = rabtishu::compile(text).expect("an accepted text");
    let image = Image::open(&bytes).unwrap();
    written(image, &Signals::of_text(text), rows)
}

fn written(image: Image, signals: &Signals, rows: &[u8]) -> String {
    let mut dump = Dump::start(Vec::new(), signals, &image.fresh()).unwrap();
    for beat in beats(image, image.fresh(), rows) {
        dump.beat(&beat).unwrap();
    }
    String::from_utf8(dump.end()).expect("a dump is ASCII")
}

/// A variable as it is declared, and the value it has.
#[derive(Clone, Debug, PartialEq)]
struct Variable {
    kind: String,
    size: usize,
    name: String,
    value: Option<String>,
}

/// All variables after the changes of one timestamp, and which of them had changes there.
#[derive(Clone, Debug)]
struct Instant {
    time: u64,
    values: BTreeMap<String, Option<i64>>,
    changed: Vec<String>,
}

/// The scope, the variables by their codes, and every timestamp.
struct Read {
    scope: String,
    variables: BTreeMap<String, Variable>,
    instants: Vec<Instant>,
}

fn read(dump: &str) -> Read {
    let mut read = Read {
        scope: String::new(),
        variables: BTreeMap::new(),
        instants: Vec::new(),
    };
    let (head, changes) = dump
        .split_once("$enddefinitions $end\n")
        .expect("an end of definitions");
    for line in head.lines() {
        let words: Vec<&str> = line.split(' ').collect();
        assert_eq!(words.last(), Some(&"$end"), "{line}");
        match words[0] {
            "$var" => declare(&mut read, &words),
            "$scope" => read.scope = words[2].to_string(),
            "$version" | "$timescale" | "$upscope" => (),
            other => panic!("{other} is not expected"),
        }
    }
    for line in changes.lines() {
        change(&mut read, line);
    }
    read
}

fn declare(read: &mut Read, words: &[&str]) {
    let variable = Variable {
        kind: words[1].to_string(),
        size: words[2].parse().expect("a size"),
        name: words[4].to_string(),
        value: None,
    };
    let before = read.variables.insert(words[3].to_string(), variable);
    assert_eq!(before, None, "a code is declared twice");
}

fn change(read: &mut Read, line: &str) {
    if let Some(time) = line.strip_prefix('#') {
        let values = read.instants.last().map(|last| last.values.clone());
        read.instants.push(Instant {
            time: time.parse().expect("a time"),
            values: values.unwrap_or_default(),
            changed: Vec::new(),
        });
    } else if !line.starts_with('$') {
        let (value, code) = match line.split_once(' ') {
            Some((value, code)) => (value.strip_prefix('b').expect("a vector"), code),
            None => line.split_at(1),
        };
        let variable = read.variables.get_mut(code).expect("a declared code");
        assert!(
            variable.kind == "event" || variable.value.as_deref() != Some(value),
            "no change: {line}"
        );
        variable.value = Some(value.to_string());
        let instant = read.instants.last_mut().expect("a time before values");
        instant
            .values
            .insert(variable.name.clone(), decoded(value, variable.size));
        instant.changed.push(variable.name.clone());
    }
}

/// A value, extended at the left as the standard says: by 0, or by what is unknown.
fn decoded(bits: &str, size: usize) -> Option<i64> {
    if bits.starts_with('x') {
        return None;
    }
    assert!(bits.len() <= size, "too many bits: {bits}");
    let value = i64::from_str_radix(bits, 2).expect("bits");
    Some(if size == 32 {
        i64::from(value as u32 as i32)
    } else {
        value
    })
}

#[test]
fn tally() {
    let process = example("tally");
    golden("tally.vcd", &dump(&process.text, &process.rows));
}

#[test]
fn values_are_those_of_the_stored_traces() {
    for process in examples() {
        let read = read(&dump(&process.text, &process.rows));
        let names = process.names();
        let traced = process.traced();
        assert_eq!(read.scope, names.entity);
        assert_eq!(read.instants.len(), traced.len() + 1, "{}", process.name);
        let mut outputs = vec![];
        for (instant, row) in read.instants[1..].iter().zip(&traced) {
            let value = |name: &str| instant.values[name].expect("a value");
            match row {
                Ok((wait, lines, _)) => {
                    assert_eq!(
                        (value("wait_line"), value("lines"), value("refused")),
                        (*wait, *lines, 0)
                    );
                }
                Err(number) => assert_eq!((value("lines"), value("refused")), (0, *number)),
            }
            let found: Vec<i64> = names
                .outputs
                .iter()
                .map(|output| value(&output.name))
                .collect();
            if let Ok((_, _, expected)) = row {
                outputs = expected.clone();
            }
            assert!(outputs.is_empty() || found == outputs, "{}", process.name);
        }
    }
}

/// Variables, inputs and wait against single cycles; what is kept stays through refused rows.
#[test]
fn values_are_those_of_the_cycles() {
    for process in examples() {
        let read = read(&dump(&process.text, &process.rows));
        let bytes = process.image();
        let image = Image::open(&bytes).unwrap();
        let mut state = image.fresh();
        let names = process.names();
        for (instant, row) in read.instants[1..].iter().zip(split(&process.rows)) {
            let (row, _) = rows::next(&mut &row[..]).unwrap().unwrap_or_default();
            let inputs = row.values().unwrap_or_default();
            let mut outputs = vec![0; image.outputs()];
            let result = image.cycle(&mut state, inputs, &mut outputs);
            let value = |name: &str| instant.values[name].map(|value| value as i32);
            assert_eq!(value("wait_line"), Some(state.place()));
            for (signal, slot) in names.variables.iter().zip(state.variables()) {
                assert_eq!(value(&signal.name), Some(*slot), "{}", process.name);
            }
            for (signal, slot) in names.outputs.iter().zip(state.outputs()) {
                assert_eq!(value(&signal.name), Some(*slot), "{}", process.name);
            }
            if !matches!(result, Err(refusal) if refusal.number == 14) {
                let found: Vec<i32> = names
                    .inputs
                    .iter()
                    .map(|it| value(&it.name).unwrap())
                    .collect();
                assert_eq!(found, inputs, "{}", process.name);
            }
        }
    }
}

#[test]
fn there_is_one_timestamp_and_one_edge_a_beat() {
    for process in examples() {
        let read = read(&dump(&process.text, &process.rows));
        let clock = process.names().clock.unwrap();
        let declared = read
            .variables
            .values()
            .find(|variable| variable.name == clock)
            .unwrap();
        assert_eq!((declared.kind.as_str(), declared.size), ("event", 1));
        for (index, instant) in read.instants.iter().enumerate() {
            assert_eq!(instant.time, 10 * index as u64);
            let edges = instant
                .changed
                .iter()
                .filter(|name| **name == clock)
                .count();
            assert_eq!(edges, usize::from(index > 0));
        }
    }
}

#[test]
fn the_beginning_has_the_initial_values_and_no_inputs() {
    for process in examples() {
        let read = read(&dump(&process.text, &process.rows));
        let (names, first) = (process.names(), &read.instants[0]);
        let bytes = process.image();
        let fresh = Image::open(&bytes).unwrap().fresh();
        assert!(names
            .inputs
            .iter()
            .all(|input| first.values[&input.name].is_none()));
        for (signal, slot) in names.outputs.iter().zip(fresh.outputs()) {
            assert_eq!(first.values[&signal.name], Some(i64::from(*slot)));
        }
        for (signal, slot) in names.variables.iter().zip(fresh.variables()) {
            assert_eq!(first.values[&signal.name], Some(i64::from(*slot)));
        }
        assert_eq!(first.values["wait_line"], Some(512));
    }
}

/// The text's own `lines` is another signal than the dump's, and all names differ without case.
#[test]
fn names_of_the_text_keep_their_names() {
    let ports = "Lines : in integer; REFUSED : out integer := 0";
    let body = "refused <= lines; wait_line := lines;";
    let text = processes::text(ports, "variable wait_line : integer := 3;", body);
    let read = read(&dump(text.as_bytes(), b"41\n42\nx\n"));
    let mut names: Vec<&str> = read
        .variables
        .values()
        .map(|variable| variable.name.as_str())
        .collect();
    names.sort_unstable();
    assert_eq!(
        names,
        [
            "clk",
            "lines",
            "lines_",
            "refused",
            "refused_",
            "wait_line",
            "wait_line_"
        ]
    );
    let last = &read.instants[3].values;
    assert_eq!((last["lines"], last["lines_"]), (Some(42), Some(0)));
    assert_eq!((last["refused"], last["refused_"]), (Some(42), Some(14)));
    assert_eq!((last["wait_line"], last["wait_line_"]), (Some(42), Some(2)));
}

#[test]
fn an_image_alone_has_a_clock_too() {
    let process = example("tally");
    let bytes = process.image();
    let image = Image::open(&bytes).unwrap();
    let read = read(&written(image, &Signals::of_image(&image), &process.rows));
    let names: Vec<&str> = read
        .variables
        .values()
        .map(|variable| variable.name.as_str())
        .collect();
    assert_eq!(
        names,
        [
            "clk",
            "in0",
            "out0",
            "var0",
            "wait_line",
            "lines",
            "refused"
        ]
    );
    assert_eq!(read.instants.len(), 7);
}

/// The most signals that a text can have: their codes stay printable and differ.
#[test]
fn the_most_signals() {
    let list = |prefix: &str, count: usize| {
        let names: Vec<String> = (0..count).map(|index| format!("{prefix}{index}")).collect();
        names.join(", ")
    };
    let ports = format!(
        "{} : in integer; {} : out integer := 1",
        list("i", 16),
        list("o", 16)
    );
    let variables = format!("variable {} : integer := -1;", list("v", 32));
    let text = processes::text(&ports, &variables, "null;");
    let read = read(&dump(
        text.as_bytes(),
        &[b"0 ".repeat(15), b"7".to_vec()].concat(),
    ));
    assert_eq!(read.variables.len(), 68);
    assert!(read
        .variables
        .keys()
        .all(|code| code.len() == 1 && code.as_bytes()[0].is_ascii_graphic()));
    assert_eq!(read.instants[1].values["i15"], Some(7));
    assert_eq!(read.instants[1].values["v31"], Some(-1));
}

/// GTKWave's own reader takes every dump and keeps every timestamp.
#[test]
fn gtkwave_reads_the_dumps() {
    if Command::new("vcd2fst").arg("--help").output().is_err() {
        println!("vcd2fst is not installed: GTKWave's reader was not asked");
        return;
    }
    let folder = std::env::temp_dir().join(format!("rabtishu-vcd-{}", std::process::id()));
    std::fs::create_dir_all(&folder).unwrap();
    for process in examples() {
        converts(&process, &folder);
    }
    std::fs::remove_dir_all(folder).unwrap();
}

fn converts(process: &Process, folder: &std::path::Path) {
    let (from, to) = (folder.join("a.vcd"), folder.join("a.fst"));
    let written = dump(&process.text, &process.rows);
    std::fs::write(&from, &written).unwrap();
    let asked = Command::new("vcd2fst").args([&from, &to]).output().unwrap();
    assert!(asked.status.success(), "{}: {asked:?}", process.name);
    let back = Command::new("fst2vcd")
        .arg(&to)
        .output()
        .expect("fst2vcd, which comes with vcd2fst");
    let back = String::from_utf8(back.stdout).unwrap();
    let times = |dump: &str| {
        dump.lines()
            .filter(|line| line.starts_with('#'))
            .map(String::from)
            .collect::<Vec<_>>()
    };
    assert_eq!(times(&back), times(&written), "{}", process.name);
}
