//! What the command says, word by word: every refusal, misuse, and trouble with files. Each case has
//! a file in tests/golden; `RABTISHU_WRITE=1 cargo test` writes them anew.

mod common;

use std::fs;
use std::path::Path;

use common::{status, tally, tally_with, Folder};

/// A case: its name, its files and its arguments.
struct Case {
    name: &'static str,
    files: Vec<(&'static str, Vec<u8>)>,
    arguments: Vec<&'static str>,
}

/// A text that is checked.
fn text(name: &'static str, bytes: impl Into<Vec<u8>>) -> Case {
    Case {
        name,
        files: vec![("process.vhd", bytes.into())],
        arguments: vec!["check", "process.vhd"],
    }
}

/// tally with one part exchanged.
fn change(name: &'static str, old: &str, new: &str) -> Case {
    text(name, tally_with(old, new))
}

/// An image that is opened.
fn image(name: &'static str, bytes: Vec<u8>) -> Case {
    Case {
        name,
        files: vec![("board.image", bytes)],
        arguments: vec!["show", "board.image"],
    }
}

/// Arguments on tally's files.
fn asked(name: &'static str, arguments: &[&'static str]) -> Case {
    let files = vec![
        ("process.vhd", tally().into_bytes()),
        ("rows.txt", b"7\n7\n1\n-5\n-2147483648\n20\n".to_vec()),
        ("state.txt", state(513).into_bytes()),
        ("board.image", tally_image()),
    ];
    Case {
        name,
        files,
        arguments: arguments.to_vec(),
    }
}

fn state(place: i32) -> String {
    let zeros = " 0".repeat(48);
    format!("{place}{zeros}\n")
}

fn tally_image() -> Vec<u8> {
    rabtishu::compile(tally().as_bytes()).expect("tally is accepted")
}

fn damaged(place: usize, byte: u8) -> Vec<u8> {
    let mut image = tally_image();
    image[place] = byte;
    image
}

/// 2, 3: bytes and tokens.
fn tokens_and_sentences() -> Vec<Case> {
    vec![
        text("01_text_too_long", " ".repeat(16_385)),
        change("02_percent", "s + d", "s % d"),
        change("02_malformed_word", "variable s", "variable s__x"),
        change("02_letter_with_accent", "s + d", "s + \u{e4}"),
        change(
            "02_quote",
            "wait until clk = '1';\n  end loop",
            "wait until clk = '2';\n  end loop",
        ),
        text("02_byte_255", [tally().as_bytes(), b"\xff"].concat()),
        change("03_missing_semicolon", "s + d;", "s + d"),
        change("03_mixed_chain", "s < 10", "s < 10 and s > 0 or d > 0"),
        change("03_second_sign", "s + d", "s - -1"),
        text("03_entity_5", "entity 5"),
        text("03_empty", ""),
        text(
            "03_cut",
            &tally().as_bytes()[..tally().find("while").unwrap_or(0)],
        ),
        text("03_end_in_comment", "entity e -- and so on"),
        text("03_behind_the_end", tally() + "x"),
        text(
            "03_tabs_and_cr_lf",
            tally()
                .replace("  ", "\t")
                .replace('\n', "\r\n")
                .replace("s + d;", "s + d"),
        ),
        change("03_reserved_as_name", "variable s", "variable mod"),
        text("03_long_line", one_line().replace("s + d;", "s + d")),
    ]
}

/// tally in one line, without its comment.
fn one_line() -> String {
    let lines = Vec::from_iter(tally().lines().skip(1).map(str::to_string));
    lines.join(" ")
}

/// 4: limits.
fn limits() -> Vec<Case> {
    let statements = "s := 0; ".repeat(600);
    let deep = "if s = 0 then ".repeat(17) + "null; " + &"end if; ".repeat(17);
    let names: Vec<String> = (0..33).map(|n| format!("v{n}")).collect();
    let variables = format!("variable {} : integer := 0; variable s", names.join(", "));
    let inputs: Vec<String> = (0..17).map(|n| format!("i{n}")).collect();
    let outputs: Vec<String> = (0..16).map(|n| format!("o{n}")).collect();
    vec![
        change("04_number", "s < 10", "s < 2147483648"),
        change(
            "04_number_beyond_64_bits",
            "s < 10",
            &format!("s < {}", "9".repeat(50)),
        ),
        change(
            "04_name_of_33_bytes",
            "variable s",
            &format!("variable {}", "n".repeat(33)),
        ),
        change(
            "04_parentheses",
            "s + d",
            &format!("{}s{}", "(".repeat(17), ")".repeat(17)),
        ),
        change("04_items", "s + d", &format!("s{}", " + d".repeat(40))),
        change(
            "04_statements",
            "total <= s;",
            &format!("total <= s; {statements}"),
        ),
        change("04_depth", "total <= s;", &format!("total <= s; {deep}")),
        change("04_variables", "variable s", &variables),
        change(
            "04_inputs",
            "d : in integer",
            &format!("{} : in integer", inputs.join(", ")),
        ),
        change(
            "04_outputs",
            "total : out",
            &format!("{}, total : out", outputs.join(", ")),
        ),
    ]
}

/// 5: names.
fn names() -> Vec<Case> {
    vec![
        change("05_unknown", "s + d", "s + e"),
        change("05_unknown_and_alike", "total <= s", "totl <= s"),
        change("05_declared_twice", "variable s", "variable d"),
        change("05_end_of_entity", "end tally", "end tale"),
        change("05_of", "of tally", "of tale"),
        change("05_variable_as_signal", "s := s + d", "s <= s + d"),
        change("05_output_as_variable", "total <= s", "total := s"),
        change("05_input_assigned", "s := s + d", "d := s + d"),
        change("05_output_read", "s + d", "s + total"),
        change(
            "05_wait_on_unknown",
            "wait until clk = '1';\n  end loop",
            "wait until clock = '1';\n  end loop",
        ),
    ]
}

/// 6: types.
fn types() -> Vec<Case> {
    vec![
        change("06_right_operand", "s + d", "s + '1'"),
        change("06_left_operand", "s + d", "'1' * d + s"),
        change("06_compared", "s < 10", "s = '1'"),
        change("06_mixed_chain", "s < 10", "s < 10 and '1'"),
        change("06_not", "s + d", "not s"),
        change("06_sign", "s < 10", "-'1' < 10"),
        change("06_chain_in_parentheses", "s + d", "s + ('1' and '0')"),
        change("06_target", "s := 0", "s := '0'"),
        change("06_output_target", "total <= s", "total <= s > 0"),
        change("06_while", "while s < 10", "while s + 10"),
        change(
            "06_initial_value",
            "variable s : integer := 0",
            "variable s : integer := '0'",
        ),
        change(
            "06_initial_number",
            "variable s : integer := 0",
            "variable s : integer := 0; variable b : std_logic := -1",
        ),
    ]
}

/// 7, 8, 9: values, clock, classes.
fn rules() -> Vec<Case> {
    vec![
        change(
            "07_variable",
            "variable s : integer := 0",
            "variable s : integer",
        ),
        change(
            "07_output",
            "total : out integer := 0",
            "total : out integer",
        ),
        change(
            "08_first_wait",
            "wait until clk = '1';\n  end loop",
            "wait until d = '1';\n  end loop",
        ),
        text("08_other_wait", other_wait()),
        change("08_clock_read", "s < 10", "s < 10 and clk = '1'"),
        change(
            "09_while",
            "wait until clk = '1';\n  end loop",
            "null;\n  end loop",
        ),
        text("09_process", no_last_wait()),
    ]
}

fn other_wait() -> String {
    let text = tally().replace("d : in integer", "d : in integer; e : in std_logic");
    let last = text.rfind("clk").expect("a wait");
    text[..last].to_string() + "e" + &text[last + 3..]
}

fn no_last_wait() -> String {
    let last = tally().rfind("wait until clk = '1';").expect("a wait");
    tally()[..last].to_string() + &tally()[last + "wait until clk = '1';".len()..]
}

/// 10 to 18: images, states, rows.
fn images_and_rows() -> Vec<Case> {
    let division = tally_with("s + d", "s / d");
    let mut zero = asked("18_zero_divisor", &["trace", "process.vhd", "rows.txt"]);
    zero.files[0].1 = division;
    zero.files[1].1 = b"1\n0\n".to_vec();
    let mut wrong = asked("14_rows", &["trace", "process.vhd", "rows.txt"]);
    wrong.files[1].1 = b"7\n1 2\nx\n\n2147483648\n7".to_vec();
    vec![
        asked("10_room", &["compile", "process.vhd", "--room", "133"]),
        image("11_empty", Vec::new()),
        image("11_form", damaged(0, 2)),
        image("11_sections", damaged(4, 29)),
        image("11_too_long", vec![1; 70_000]),
        image("12_type", damaged(31, 2)),
        image("13_line", damaged(54, 5)),
        image("13_reach", damaged(76, 1)),
        image("13_code_left", code_left()),
        wrong,
        asked(
            "15_state",
            &["run", "board.image", "rows.txt", "--state", "state.txt"],
        ),
        asked("16_out_of_range", &["trace", "process.vhd", "rows.txt"]),
        asked("16_image_alone", &["run", "board.image", "rows.txt"]),
        asked("17_explained", &["explain", "17"]),
        zero,
    ]
}

/// tally's image with a byte of code behind the last run.
fn code_left() -> Vec<u8> {
    let mut image = tally_image();
    image[24] += 1;
    image.push(0);
    image
}

/// Misuse, trouble with files, help.
fn uses() -> Vec<Case> {
    vec![
        asked("20_no_command", &[]),
        asked("20_unknown_command", &["chekc", "process.vhd"]),
        asked("20_unknown_option", &["check", "--jsn", "process.vhd"]),
        asked("20_no_operand", &["check"]),
        asked("20_no_value", &["compile", "process.vhd", "-o"]),
        asked(
            "20_twice",
            &["compile", "process.vhd", "--form", "1", "--form=1"],
        ),
        asked("20_no_number", &["compile", "process.vhd", "--form", "one"]),
        asked(
            "20_no_such_form",
            &["compile", "process.vhd", "--form", "2"],
        ),
        asked(
            "20_move",
            &["move", "board.image", "--form", "1", "-o", "moved.image"],
        ),
        asked("20_explain_19", &["explain", "19"]),
        asked("21_missing_file", &["check", "other.vhd"]),
        asked("21_directory", &["check", "."]),
        asked(
            "21_output_is_directory",
            &["compile", "process.vhd", "-o", "."],
        ),
        asked(
            "21_output_in_no_folder",
            &["compile", "process.vhd", "-o", "no/board.image"],
        ),
        asked(
            "21_no_state",
            &["run", "board.image", "rows.txt", "--state", "rows.txt"],
        ),
        asked("21_full", &["compile", "process.vhd", "-o", "/dev/full"]),
        asked(
            "22_several_files",
            &[
                "check",
                "process.vhd",
                "rows.txt",
                "other.vhd",
                "process.vhd",
            ],
        ),
        asked("22_json", &["check", "--json", "process.vhd", "rows.txt"]),
        asked("22_compile", &["compile", "process.vhd"]),
        asked("22_help", &["--help"]),
        asked("22_help_of_run", &["run", "--help"]),
        asked("22_version", &["--version"]),
        asked("22_explain_3", &["explain", "3"]),
        asked("22_show", &["show", "board.image"]),
        asked(
            "22_show_with_names",
            &["show", "board.image", "--names", "process.vhd"],
        ),
    ]
}

/// What was said and answered, as the golden files have it.
fn said(case: &Case) -> String {
    let folder = Folder::new();
    for (name, bytes) in &case.files {
        folder.put(name, bytes);
    }
    let output = folder.run(&case.arguments);
    let words = |bytes: &[u8]| String::from_utf8(bytes.to_vec()).expect("UTF-8");
    format!(
        "$ rabtishu {}\n{}--- standard error\n{}--- exit status {}\n",
        case.arguments.join(" "),
        words(&output.stdout),
        words(&output.stderr),
        status(&output)
    )
}

fn hold(cases: Vec<Case>) {
    let folder = Path::new(env!("CARGO_MANIFEST_DIR")).join("tests/golden");
    let write = std::env::var_os("RABTISHU_WRITE").is_some();
    for case in cases {
        let file = folder.join(format!("{}.txt", case.name));
        let said = said(&case);
        if write {
            fs::write(&file, &said).expect("a golden file");
        }
        let kept = fs::read_to_string(&file).unwrap_or_default();
        assert_eq!(said, kept, "{}", case.name);
    }
}

#[test]
fn of_tokens_and_sentences() {
    hold(tokens_and_sentences());
}

#[test]
fn of_limits() {
    hold(limits());
}

#[test]
fn of_names() {
    hold(names());
}

#[test]
fn of_types() {
    hold(types());
}

#[test]
fn of_rules() {
    hold(rules());
}

#[test]
fn of_images_and_rows() {
    hold(images_and_rows());
}

#[test]
fn of_uses() {
    hold(uses());
}

/// Each refusal that a command can come to is told in some golden file; 17 is explained alone.
#[test]
fn every_number() {
    let folder = Path::new(env!("CARGO_MANIFEST_DIR")).join("tests/golden");
    let files = fs::read_dir(folder).expect("golden files");
    let all: String = files
        .map(|file| fs::read_to_string(file.expect("a file").path()).expect("words"))
        .collect();
    for number in (1..=18).filter(|number| *number != 17) {
        assert!(all.contains(&format!("refused[{number}]")), "{number}");
    }
}
