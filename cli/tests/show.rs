//! The table in words: golden output, and words that compile to the code they were read from.

mod processes;

use processes::{example, examples, golden, text};
use rabtishu::Image;
use rabtishu_cli::expression::expression;
use rabtishu_cli::show::show;
use rabtishu_cli::signals::{statements, Signals};
use rabtishu_cli::table::Table;
use rabtishu_cli::tokens::tokens;
use std::ops::Range;

#[test]
fn tally() {
    let process = example("tally");
    let bytes = process.image();
    let image = Image::open(&bytes).unwrap();
    golden("tally.show", &show(&image, &process.names()));
    golden(
        "tally-image.show",
        &show(&image, &Signals::of_image(&image)),
    );
}

#[test]
fn every_example_shows_every_line() {
    for process in examples() {
        let bytes = process.image();
        let image = Image::open(&bytes).unwrap();
        let shown = show(&image, &process.names());
        let lines = image.lines().len() / 12;
        let numbered = shown
            .lines()
            .filter(|line| line.trim_start().starts_with(|c: char| c.is_ascii_digit()));
        assert_eq!(numbered.count(), lines, "{}", process.name);
        assert!(shown
            .lines()
            .all(|line| line.len() <= 100 && line.trim_end() == line));
    }
}

/// No cycle of a trace performs more lines than the bound, and some are as long.
#[test]
fn bounds_hold_in_the_traces() {
    let bound = |name: &str| {
        let bytes = example(name).image();
        Table::of(&Image::open(&bytes).unwrap()).bound()
    };
    assert_eq!(bound("tally"), 4);
    for process in examples() {
        let performed = process
            .traced()
            .into_iter()
            .flatten()
            .map(|(_, lines, _)| lines);
        let most = performed.max().unwrap();
        assert!(most <= i64::from(bound(&process.name)), "{}", process.name);
    }
    assert_eq!(bound("countdown"), 7);
}

/// The beginning counts too: here both waits go on at a wait, and only the first cycle is long.
#[test]
fn bounds_count_the_beginning() {
    let mut bytes = example("tally").image();
    let lines = 28 + Image::open(&bytes).unwrap().signature().len();
    for wait in [2, 5] {
        bytes[lines + 12 * wait + 6] = 2;
    }
    let image = Image::open(&bytes).expect("a good image all the same");
    assert_eq!(Table::of(&image).bound(), 4);
}

/// Where the expression of the statement at a place stands.
fn expression_at(text: &[u8], place: usize) -> Option<Range<usize>> {
    let found: Vec<(usize, Vec<u8>)> = tokens(&text[place..])
        .map(|token| (place + token.place, token.bytes.to_ascii_lowercase()))
        .collect();
    let (skipped, end) = match found[0].1.as_slice() {
        b"wait" | b"null" => return None,
        b"if" => (1, "then"),
        b"while" => (1, "loop"),
        _ => (2, ";"),
    };
    let end = found.iter().find(|(_, token)| token == end.as_bytes())?;
    Some(found[skipped].0..end.0)
}

/// The text with the words of one line's code in the place of its expression.
fn replaced(text: &[u8], range: Range<usize>, words: &str) -> Vec<u8> {
    [
        &text[..range.start],
        words.as_bytes(),
        b" ",
        &text[range.end..],
    ]
    .concat()
}

/// Words of every line, put back into the text, compile to the same image.
fn recompiles(text: &[u8]) {
    let bytes = rabtishu::compile(text).expect("an accepted text");
    let table = Table::of(&Image::open(&bytes).unwrap());
    let names = Signals::of_text(text);
    let places = statements(text);
    assert_eq!(places.len(), table.lines.len());
    for (line, place) in table.lines.iter().zip(places) {
        let range = expression_at(text, place);
        assert_eq!(range.is_none(), line.code.is_empty());
        let Some(range) = range else { continue };
        let words = expression(line.code, &names);
        let again = replaced(text, range.clone(), &words);
        assert_eq!(rabtishu::compile(&again).as_ref(), Ok(&bytes), "{words}");
        no_parentheses_too_many(text, range, &words, &bytes);
    }
}

/// Without any one pair of its parentheses an expression is refused or reads differently.
fn no_parentheses_too_many(text: &[u8], range: Range<usize>, words: &str, image: &[u8]) {
    for open in (0..words.len()).filter(|&at| words.as_bytes()[at] == b'(') {
        let mut without = words.as_bytes().to_vec();
        without[closing(words, open)] = b' ';
        without[open] = b' ';
        let without = String::from_utf8(without).unwrap();
        let again = rabtishu::compile(&replaced(text, range.clone(), &without));
        assert_ne!(again.as_deref(), Ok(image), "{words} as {without}");
    }
}

fn closing(words: &str, open: usize) -> usize {
    let mut depth = 0;
    let inner = words.bytes().enumerate().skip(open);
    let mut ends = inner.filter_map(|(at, byte)| {
        depth += i32::from(byte == b'(') - i32::from(byte == b')');
        (depth == 0).then_some(at)
    });
    ends.next().expect("parentheses in pairs")
}

#[test]
fn words_of_the_examples_compile_to_the_same_code() {
    for process in examples() {
        recompiles(&process.text);
    }
}

/// Numbers that are the same in every run of the tests.
struct Numbers(u64);

impl Numbers {
    fn below(&mut self, limit: u64) -> u64 {
        self.0 = self
            .0
            .wrapping_mul(6364136223846793005)
            .wrapping_add(1442695040888963407);
        (self.0 >> 33) % limit
    }

    fn one<'a>(&mut self, of: &[&'a str]) -> &'a str {
        of[self.below(of.len() as u64) as usize]
    }
}

/// An integer expression, every operand in parentheses.
fn integer(numbers: &mut Numbers, depth: u32) -> String {
    match (depth, numbers.below(6)) {
        (0, _) | (_, 0) => numbers.one(&["x", "v", "0", "2147483647"]).to_string(),
        (_, 1) => format!("-({})", integer(numbers, depth - 1)),
        _ => {
            let operator = numbers.one(&["+", "-", "*", "/", "mod", "rem"]);
            let left = integer(numbers, depth - 1);
            format!("({left}) {operator} ({})", integer(numbers, depth - 1))
        }
    }
}

/// An expression of bits, or of booleans.
fn logical(numbers: &mut Numbers, depth: u32, boolean: bool) -> String {
    match (depth, numbers.below(6), boolean) {
        (0, _, true) | (_, 0, true) => comparison(numbers, depth),
        (0, _, false) | (_, 0, false) => numbers.one(&["b", "w", "'0'", "'1'"]).to_string(),
        (_, 1, _) => format!("not ({})", logical(numbers, depth - 1, boolean)),
        _ => {
            let operator = numbers.one(&["and", "and", "or", "xor"]);
            let left = logical(numbers, depth - 1, boolean);
            format!(
                "({left}) {operator} ({})",
                logical(numbers, depth - 1, boolean)
            )
        }
    }
}

fn comparison(numbers: &mut Numbers, depth: u32) -> String {
    let inner = depth.saturating_sub(1).min(1);
    match numbers.below(3) {
        0 => {
            let operator = numbers.one(&["=", "/="]);
            let left = logical(numbers, inner, false);
            format!("({left}) {operator} ({})", logical(numbers, inner, false))
        }
        _ => {
            let operator = numbers.one(&["=", "/=", "<", "<=", ">", ">="]);
            let left = integer(numbers, inner);
            format!("({left}) {operator} ({})", integer(numbers, inner))
        }
    }
}

#[test]
fn words_of_any_expression_compile_to_the_same_code() {
    let mut numbers = Numbers(25);
    let mut compiled = 0;
    for _ in 0..400 {
        let body = format!(
            "v := {}; w := {}; if {} then null; end if;",
            integer(&mut numbers, 4),
            logical(&mut numbers, 4, false),
            logical(&mut numbers, 3, true)
        );
        let ports = "x : in integer; b : in std_logic; o : out integer := 0";
        let variables = "variable v : integer := 0; variable w : std_logic := '0';";
        let text = text(ports, variables, &body);
        match rabtishu::check(text.as_bytes()) {
            Ok(()) => compiled += 1,
            Err(refusal) => {
                assert_eq!(refusal.number, 4, "{text}");
                continue;
            }
        }
        recompiles(text.as_bytes());
    }
    assert!(compiled > 200, "only {compiled} texts kept the limits");
}

/// An image may have literals below 0, which no compile writes.
#[test]
fn literals_below_0_have_their_sign() {
    let text = text(
        "x : in integer; o : out integer := 0",
        "variable v : integer := 0;",
        "v := 1 * 3 + 2;",
    );
    let mut bytes = rabtishu::compile(text.as_bytes()).unwrap();
    let code = bytes.len() - Image::open(&bytes).unwrap().code().len();
    for literal in [code + 1, code + 6] {
        bytes[literal..literal + 4].copy_from_slice(&i32::MIN.to_le_bytes());
    }
    let image = Image::open(&bytes).expect("a good image all the same");
    let line = Table::of(&image).lines[0];
    let words = expression(line.code, &Signals::of_text(text.as_bytes()));
    assert_eq!(words, "(-2147483648) * (-2147483648) + 2");
}

#[test]
fn long_expressions_go_on_below() {
    let sum = vec!["a_rather_long_name"; 32].join(" + ");
    let text = text(
        "a_rather_long_name : in integer; o : out integer := 0",
        "",
        &format!("o <= {sum};"),
    );
    let bytes = rabtishu::compile(text.as_bytes()).unwrap();
    let shown = show(
        &Image::open(&bytes).unwrap(),
        &Signals::of_text(text.as_bytes()),
    );
    assert!(shown.lines().all(|line| line.len() <= 100), "{shown}");
    assert_eq!(shown.matches("a_rather_long_name").count(), 33);
}
