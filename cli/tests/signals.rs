//! Names, types, tokens and statements of texts.

mod processes;

use processes::{example, examples, text, Process};
use rabtishu::Image;
use rabtishu_cli::signals::{statements, Kind, Signal, Signals};
use rabtishu_cli::table::{LineKind, Table};
use rabtishu_cli::tokens::tokens;

fn names(signals: &[Signal]) -> Vec<&str> {
    signals.iter().map(|signal| signal.name.as_str()).collect()
}

fn kinds(signals: &[Signal]) -> Vec<Kind> {
    signals.iter().map(|signal| signal.kind).collect()
}

#[test]
fn countdown_has_its_names_in_declared_order() {
    let found = example("countdown").names();
    assert_eq!(found.entity, "countdown");
    assert_eq!(found.clock.as_deref(), Some("clk"));
    assert_eq!(names(&found.inputs), ["minute", "hold", "due"]);
    assert_eq!(kinds(&found.inputs), [Kind::Bit, Kind::Bit, Kind::Integer]);
    assert_eq!(names(&found.outputs), ["minutes", "boarding", "late"]);
    assert_eq!(names(&found.variables), ["left"]);
}

#[test]
fn types_are_those_of_the_image() {
    for process in examples() {
        let bytes = process.image();
        let image = Image::open(&bytes).unwrap();
        let (by_text, by_image) = (process.names(), Signals::of_image(&image));
        assert_eq!(
            kinds(&by_text.inputs),
            kinds(&by_image.inputs),
            "{}",
            process.name
        );
        assert_eq!(
            kinds(&by_text.outputs),
            kinds(&by_image.outputs),
            "{}",
            process.name
        );
        assert_eq!(
            kinds(&by_text.variables),
            kinds(&by_image.variables),
            "{}",
            process.name
        );
    }
}

#[test]
fn outputs_are_those_of_the_header_of_the_trace() {
    for process in examples() {
        let header: Vec<&str> = process.trace.lines().next().unwrap().split(' ').collect();
        assert_eq!(
            names(&process.names().outputs),
            header[3..],
            "{}",
            process.name
        );
    }
}

#[test]
fn the_clock_is_the_name_of_the_first_wait_wherever_it_is_declared() {
    let text = b"entity t is port ( a : in integer; B, Tick : in std_logic := '1'; q : out integer := 0 ); end t; \
        architecture x of t is begin process begin q <= a; WAIT Until tick = '1'; end process; end x;";
    assert_eq!(rabtishu::check(text), Ok(()));
    let found = Signals::of_text(text);
    assert_eq!(found.clock.as_deref(), Some("tick"));
    assert_eq!(names(&found.inputs), ["a", "b"]);
    assert_eq!(kinds(&found.inputs), [Kind::Integer, Kind::Bit]);
    assert_eq!(names(&found.variables), [] as [&str; 0]);
}

#[test]
fn names_have_no_case_and_comments_none_at_all() {
    let small = example("factorial");
    let upper = String::from_utf8(small.text.clone())
        .unwrap()
        .to_uppercase();
    let noted = upper.replace(
        ';',
        "; -- port ( x : in integer ) process begin null; wait\n",
    );
    assert_eq!(rabtishu::check(noted.as_bytes()), Ok(()));
    assert_eq!(Signals::of_text(noted.as_bytes()), small.names());
    assert_eq!(
        statements(noted.as_bytes()).len(),
        statements(&small.text).len()
    );
}

#[test]
fn an_image_alone_has_numbered_names() {
    let bytes = example("countdown").image();
    let found = Signals::of_image(&Image::open(&bytes).unwrap());
    assert_eq!(names(&found.inputs), ["in0", "in1", "in2"]);
    assert_eq!(names(&found.outputs), ["out0", "out1", "out2"]);
    assert_eq!(names(&found.variables), ["var0"]);
    assert_eq!(found.clock, None);
}

/// The walk asks for tokens at the beginning of what is left; they must be those of the whole text.
#[test]
fn tokens_are_those_of_every_place() {
    let whole = |text: &[u8]| {
        let places = (0..text.len()).map(|place| (place, rabtishu::token_at(text, place).to_vec()));
        places
            .filter(|(_, token)| !token.is_empty())
            .collect::<Vec<_>>()
    };
    let mut texts: Vec<Vec<u8>> = examples().into_iter().map(|process| process.text).collect();
    texts.push(b"a--b\nc - -d --e".to_vec());
    texts.push(b"a <=:= /=b__c d".to_vec());
    texts.push(b"'1' '0'' x".to_vec());
    texts.push(b"--".to_vec());
    texts.push(Vec::new());
    for text in texts {
        let found: Vec<_> = tokens(&text)
            .map(|token| (token.place, token.bytes.to_vec()))
            .collect();
        assert_eq!(found, whole(&text), "{}", String::from_utf8_lossy(&text));
    }
}

/// The kind of line that a statement is, by its first tokens.
fn kind_at(text: &[u8], place: usize) -> LineKind {
    let mut words = tokens(&text[place..]).map(|token| token.bytes.to_ascii_lowercase());
    match words.next().unwrap().as_slice() {
        b"wait" => LineKind::Wait,
        b"if" | b"while" => LineKind::Branch,
        b"null" => LineKind::Null,
        _ if words.next().unwrap() == b"<=" => LineKind::Signal,
        _ => LineKind::Variable,
    }
}

fn statements_are_lines(text: &[u8]) {
    let bytes = rabtishu::compile(text).expect("an accepted text");
    let lines = Table::of(&Image::open(&bytes).unwrap()).lines;
    let by_text: Vec<LineKind> = statements(text)
        .iter()
        .map(|&place| kind_at(text, place))
        .collect();
    let by_image: Vec<LineKind> = lines.iter().map(|line| line.kind).collect();
    assert_eq!(by_text, by_image);
}

#[test]
fn statements_are_the_lines_of_the_table() {
    for Process { text, .. } in examples() {
        statements_are_lines(&text);
    }
    let body = "null; if q = '1' then null; if q = '0' then null; end if; else while q = '1' loop \
        null; -- wait until clk = '1';\nwait until clk = '1'; end loop; v := v; end if; o <= v;";
    let text = text(
        "q : in std_logic; o : out integer := 1",
        "variable v : integer := 2;",
        body,
    );
    statements_are_lines(text.as_bytes());
}

#[test]
fn texts_that_are_cut_off_are_walked_too() {
    for Process { text, .. } in examples() {
        for end in 0..text.len() {
            Signals::of_text(&text[..end]);
            assert!(statements(&text[..end]).iter().all(|&place| place < end));
        }
    }
}
