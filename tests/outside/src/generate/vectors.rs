//! The cases of the test program `test_vectors`: accepted texts with rows, right and wrong ones, and some
//! refused texts.

use super::arithmetic::{EDGES, OPERATORS};
use super::limits::limit_texts;
use super::random::{Random, SEED};
use super::{rows, texts};
use crate::design::Design;
use crate::frozen;
use crate::tree::Type;
use crate::vectors::{bytes, Case, Row};
use crate::verdict::verdict;

/// The program reads no more of a file.
const FILE: usize = 65_536;
/// The longest text, and the most statements.
const TEXT: usize = 16_384;
const STATEMENTS: usize = 512;
/// Longer refused texts are left to the program `refusals`.
const REFUSED: usize = 1000;

/// The files of cases with their names, each no longer than the program reads.
pub fn files() -> Vec<(String, Vec<u8>)> {
    let groups = [
        ("document", document()),
        ("examples", examples()),
        ("operators", operators()),
        ("nesting", nesting()),
        ("frozen", frozen_texts()),
        ("random", random_texts()),
        ("limits", limits()),
    ];
    let mut files = Vec::new();
    for (name, cases) in groups {
        for (number, part) in parts(cases).into_iter().enumerate() {
            files.push((format!("{name}_{}", number + 1), bytes(&part)));
        }
    }
    files
}

/// The cases in parts, each of which fits a file.
fn parts(cases: Vec<Case>) -> Vec<Vec<Case>> {
    let mut parts = vec![Vec::new()];
    let mut size = 0;
    for case in cases {
        let one = [case];
        let more = bytes(&one).len();
        if size + more > FILE {
            parts.push(Vec::new());
            size = 0;
        }
        size += more;
        let last = parts.last_mut().expect("a part");
        last.extend(one);
    }
    parts
}

/// A text with these rows and then wrong ones, with a right one between them.
fn case(text: &str, good: &[&[i32]]) -> Case {
    let good = good.iter().map(|row| row.to_vec()).collect();
    case_of(text.as_bytes().to_vec(), good)
}

fn case_of(text: Vec<u8>, good: Vec<Vec<i32>>) -> Case {
    let rows = match verdict(&text) {
        Ok(design) => all_rows(&design, good),
        Err(_) => Vec::new(),
    };
    Case { text, rows }
}

fn all_rows(design: &Design, good: Vec<Vec<i32>>) -> Vec<Row> {
    let room = design.outputs.len();
    let right = |inputs: Vec<i32>| Row { inputs, room };
    let zeros = vec![0; design.inputs.len()];
    let mut list: Vec<Row> = good.into_iter().map(right).collect();
    // Too long, too short; output rows of other lengths.
    list.push(right([zeros.clone(), vec![0]].concat()));
    if let Some((_, shorter)) = zeros.split_last() {
        list.push(right(shorter.to_vec()));
    }
    for room in [room + 1, room.saturating_sub(1)] {
        let inputs = zeros.clone();
        list.push(Row { inputs, room });
    }
    list.push(right(zeros.clone()));
    // No std_logic: at the first place, at the last, at all.
    let places: Vec<usize> = (0..zeros.len())
        .filter(|at| design.inputs[*at] == Type::StdLogic)
        .collect();
    let wrong = |value: i32, places: &[usize]| {
        let mut inputs = zeros.clone();
        for at in places {
            inputs[*at] = value;
        }
        right(inputs)
    };
    if let (Some(first), Some(last)) = (places.first(), places.last()) {
        list.push(wrong(2, &[*last]));
        list.push(wrong(-1, &[*first]));
        list.push(wrong(2, &places));
    }
    // The ends of the range.
    for value in [i32::MAX, i32::MIN, 1] {
        let value = |kind: &Type| match kind {
            Type::StdLogic => i32::from(value > 0),
            Type::Integer => value,
        };
        list.push(right(design.inputs.iter().map(value).collect()));
    }
    list
}

/// The text around these statements, which end with a wait.
fn text(ports: &str, variables: &str, statements: &str) -> String {
    format!(
        "entity e is port ( clk : in std_logic; {ports} ); end e; architecture a of e is begin \
         process {variables} begin {statements} wait until clk = '1'; end process; end a;"
    )
}

/// Document 01's own texts: tally with its trace, and P7 and P8.
fn document() -> Vec<Case> {
    let tally =
        "entity tally is port ( clk : in std_logic; d : in integer; total : out integer := \
        0 ); end tally; architecture a of tally is begin process variable s : integer := 0; begin \
        while s < 10 loop s := s + d; wait until clk = '1'; end loop; total <= s; s := 0; wait \
        until clk = '1'; end process; end a;";
    let trace: &[&[i32]] = &[&[7], &[7], &[1], &[-5], &[i32::MIN], &[20]];
    let bits: &[&[i32]] = &[&[0, 0], &[0, 1], &[1, 0], &[1, 1]];
    let p7 = text(
        "a, b : in std_logic; q : out std_logic := '0'",
        "",
        "if not a = b then q <= '1'; else q <= '0'; end if;",
    );
    let p8 = |value: &str| {
        let statement = format!("q <= 1; q <= {value}; q <= 2;");
        text("q : out integer := 5", "", &statement)
    };
    let once: &[&[i32]] = &[&[], &[]];
    vec![
        case(tally, trace),
        case(&p7, bits),
        case(&p8("-2147483647 - 1"), once),
        case(&p8("-(-2147483647 - 1)"), once),
    ]
}

/// The texts of the published sources, with rows that reach every statement.
fn examples() -> Vec<Case> {
    let bits: &[&[i32]] = &[&[1], &[1], &[0], &[1], &[1], &[1], &[0], &[1]];
    let empty: &[&[i32]] = &[&[], &[], &[]];
    let mut gcd: Vec<&[i32]> = vec![&[0, 0, 0], &[6, 4, 1], &[6, 4, 0], &[6, 4, 0], &[6, 4, 0]];
    gcd.push(&[5, 1, 1]);
    gcd.extend([&[5, 1, 0] as &[i32]; 45]);
    let mut factorial: Vec<&[i32]> = vec![&[0, 0], &[1, 5]];
    factorial.extend([&[0, 0] as &[i32]; 20]);
    let marking: &[&[i32]] = &[
        &[0, 1, 0, 0],
        &[1, 1, 0, 1],
        &[1, 1, 2, 0],
        &[1, 1, 1, 3],
        &[0, 1, 9, 9],
    ];
    let time: &[&[i32]] = &[
        &[0, 0, 0, 0, 0],
        &[1, 1, 1, 0, 3],
        &[1, 1, 1, 0, 3],
        &[1, 1, 1, 0, 3],
        &[1, 1, 1, 0, 3],
        &[1, 1, 1, 1, 3],
        &[1, 0, 1, 0, 3],
        &[1, 1, 0, 0, 3],
    ];
    vec![
        case(include_str!("../../../../examples/gcd/process.vhd"), &gcd),
        case(
            include_str!("../../../../examples/factorial/process.vhd"),
            &factorial,
        ),
        case(
            include_str!("../../../../examples/immediate/process.vhd"),
            empty,
        ),
        case(
            include_str!("../../../../examples/cell_behavior/process.vhd"),
            bits,
        ),
        case(
            include_str!("../../../../examples/cell_implementation/process.vhd"),
            bits,
        ),
        case(
            include_str!("../../../../examples/parity_behavior/process.vhd"),
            bits,
        ),
        case(
            include_str!("../../../../examples/parity_implementation/process.vhd"),
            bits,
        ),
        case(
            include_str!("../../../../examples/marking/process.vhd"),
            marking,
        ),
        case(
            include_str!("../../../../examples/time_counter/process.vhd"),
            time,
        ),
    ]
}

/// Every operator on every type that it takes, over pairs of values.
fn operators() -> Vec<Case> {
    let mut cases = Vec::new();
    let integers = [i32::MIN, i32::MIN + 1, -1, 0, 1, i32::MAX - 1, i32::MAX];
    let bits = [0, 1];
    let test = |condition: &str| format!("if {condition} then r <= '1'; else r <= '0'; end if;");
    let mut add = |kind: &str, values: &[i32], statement: &str| {
        let ports = format!(
            "x, y : in {kind}; q : out {kind} := {}; r : out std_logic := '0'",
            if kind == "integer" { "-3" } else { "'1'" }
        );
        let pairs = values
            .iter()
            .flat_map(|x| values.iter().map(move |y| vec![*x, *y]));
        let text = text(&ports, "", statement);
        cases.push(case_of(text.into_bytes(), pairs.collect()));
    };
    for value in [
        "x + y",
        "x - y",
        "- x",
        "- x - y",
        "x - (y - x)",
        "(x + y) - (x - y)",
    ] {
        add("integer", &integers, &format!("q <= {value};"));
    }
    for operator in OPERATORS {
        add("integer", &EDGES, &format!("q <= x {operator} y;"));
    }
    // A sign on a whole term; the left one first; `*` and its like before `+`; which of 16 and 18.
    for value in [
        "- x mod y",
        "(- x) mod y",
        "x / y * y + x rem y",
        "x - x mod y / 2",
        "x * y / (x - y)",
        "(x + 1) / y + (y + 1) rem x",
    ] {
        add("integer", &integers, &format!("q <= {value};"));
    }
    add("integer", &integers, &test("x / y > x mod y"));
    for operator in ["=", "/=", "<", "<=", ">", ">="] {
        add("integer", &integers, &test(&format!("x {operator} y")));
    }
    for operator in ["=", "/="] {
        add("std_logic", &bits, &test(&format!("x {operator} y")));
    }
    for operator in ["and", "or", "xor"] {
        add("std_logic", &bits, &format!("q <= x {operator} y;"));
        add(
            "std_logic",
            &bits,
            &format!("q <= x {operator} not y {operator} '1' {operator} x;"),
        );
        add(
            "std_logic",
            &bits,
            &test(&format!("(x = '1') {operator} (y = '0')")),
        );
        add(
            "std_logic",
            &bits,
            &test(&format!("not (x = '1') {operator} y = '0'")),
        );
    }
    add("std_logic", &bits, "q <= not x;");
    // Both operands are evaluated: the right one is refused though the left one decides.
    add(
        "integer",
        &[0, 1, i32::MAX],
        &test("(x = 1) or (x + y > 0)"),
    );
    add(
        "integer",
        &[0, 1, i32::MAX],
        &test("(x /= 1) and (x + y > 0)"),
    );
    cases
}

/// Three statements in one another, each an if without else, an if with waits in both branches, an
/// else branch, or a while.
fn nesting() -> Vec<Case> {
    let wait = "wait until clk = '1';";
    let around = |kind: usize, condition: &str, inner: &str| match kind {
        0 => format!("if {condition} then {inner} end if;"),
        1 => format!("if {condition} then {inner} else q <= 0 - s; {wait} end if;"),
        2 => format!("if {condition} then null; else {inner} end if;"),
        _ => format!("while {condition} loop {inner} {wait} end loop;"),
    };
    let ports = "a, b, c : in std_logic; q : out integer := 0";
    let mut cases = Vec::new();
    for shape in 0..64 {
        let mut inner = format!("q <= s; {wait} s := s + 10;");
        for (condition, kind) in [
            ("c = '1'", shape % 4),
            ("b = '1'", shape / 4 % 4),
            ("a = '1'", shape / 16),
        ] {
            inner = format!("s := s + 1; {}", around(kind, condition, &inner));
        }
        let text = text(
            ports,
            "variable s : integer := 0;",
            &format!("{inner} q <= s;"),
        );
        let mut random = Random::round(SEED, shape);
        let row = |_| (0..3).map(|_| random.below(2) as i32).collect();
        cases.push(case_of(text.into_bytes(), (0..12).map(row).collect()));
    }
    cases
}

/// The frozen texts with the rows that their steps have; of the refused ones the short ones.
fn frozen_texts() -> Vec<Case> {
    let texts = frozen::texts().into_iter();
    let texts = texts.filter(|case| case.image.is_ok() || case.text.len() <= REFUSED);
    let with_rows = |case: frozen::TextCase| {
        let rows = case.steps.into_iter().map(|step| step.inputs).collect();
        case_of(case.text, rows)
    };
    texts.map(with_rows).collect()
}

/// Random texts with random rows.
fn random_texts() -> Vec<Case> {
    let mut cases = Vec::new();
    let mut round = 1000;
    while cases.len() < 60 {
        round += 1;
        let mut random = Random::round(SEED, round);
        let text = texts::accepted(&mut random);
        if text.len() > 2500 {
            continue;
        }
        let design = verdict(&text).expect("accepted");
        let outputs = design.outputs.len();
        let row = |_| Row {
            inputs: rows::any(&design.inputs, &mut random),
            room: rows::room(outputs, &mut random),
        };
        let rows = (0..12).map(row).collect();
        cases.push(Case { text, rows });
    }
    cases
}

/// Texts at the limits, and the text with the most code.
fn limits() -> Vec<Case> {
    let accepted = limit_texts()
        .into_iter()
        .filter(|text| text.refusal.is_none());
    let mut cases: Vec<Case> = accepted
        .map(|text| case_of(text.text, Vec::new()))
        .collect();
    cases.push(case_of(most_code().into_bytes(), vec![vec![], vec![]]));
    cases
}

/// A text of 16,384 bytes with 512 statements, all but the last one sums of ones.
fn most_code() -> String {
    let whole = |sums: &str| {
        format!(
            "entity e is port(c:in std_logic);end e;architecture a of e is begin process variable \
             s:integer:=0;begin {sums}wait until c='1';end process;end a;"
        )
    };
    let count = STATEMENTS - 1;
    let room = TEXT - whole("").len();
    // A sum of n ones has 2 n + 3 bytes.
    let ones = (room - 3 * count) / 2;
    let mut sums = String::new();
    for at in 0..count {
        let n = ones / count + usize::from(at < ones % count);
        sums += &format!("s:=1{};", "+1".repeat(n - 1));
    }
    let text = whole(&sums);
    let blanks = TEXT - text.len();
    text + &" ".repeat(blanks)
}
