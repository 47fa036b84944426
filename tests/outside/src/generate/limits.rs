//! Texts at the limits and one beyond, drawn with `^` before the token at the place.

use crate::answer::{refusal, Refusal};

// Document 01's numbers once more: a wrong one in the reader shows.
const TEXT: usize = 16_384;
const NAME: usize = 32;
const INPUTS: usize = 17;
const OUTPUTS: usize = 16;
const VARIABLES: usize = 32;
const STATEMENTS: usize = 512;
const DEPTH: usize = 16;
const ITEMS: usize = 64;
const PARENTHESES: usize = 16;

/// A text and its refusal, if it has one.
pub struct LimitText {
    pub label: String,
    pub text: Vec<u8>,
    pub refusal: Option<Refusal>,
}

/// A text as it is drawn, `^` taken out; refused by this number if there is one.
pub fn drawn(label: &str, number: Option<u32>, drawing: &str) -> LimitText {
    let place = drawing.find('^').unwrap_or(0);
    LimitText {
        label: label.to_string(),
        text: drawing.replace('^', "").into_bytes(),
        refusal: number.map(|number| refusal(number, place)),
    }
}

/// A text with these further ports, variables and statements before its last wait, which is the
/// place if `^` ends them.
fn text(ports: &str, variables: &str, body: &str) -> String {
    let text = format!(
        "entity e is port ( clk : in std_logic {ports} ) ; end e ; architecture a of e is \
         begin process {variables} begin {body} wait until clk = '1' ; end process ; end a ;"
    );
    text.replace("^ wait", "^wait")
}

const INTEGER: &str = "variable s , u : integer := 0 ;";

/// All of them.
pub fn limit_texts() -> Vec<LimitText> {
    let mut texts = lengths();
    texts.extend(names());
    texts.extend(ports());
    texts.extend(variables());
    texts.extend(statements());
    texts.extend(depths());
    texts.extend(items());
    texts.extend(parentheses());
    texts.extend(literals());
    texts.extend(largest());
    texts
}

/// 4, if the count is over its limit.
fn over(count: usize, limit: usize) -> Option<u32> {
    (count > limit).then_some(4)
}

fn lengths() -> Vec<LimitText> {
    let filled = |length: usize, fill: &str| {
        let text = text("", INTEGER, "s := s + 1 ;");
        let rest = length - text.len();
        format!("{text}{}", fill.repeat(rest / fill.len()))
    };
    vec![
        drawn("16,384 bytes", None, &filled(TEXT, " ")),
        drawn("16,385 bytes", Some(1), &filled(TEXT + 1, " ")),
        drawn("16,385 spaces", Some(1), &" ".repeat(TEXT + 1)),
        drawn("16,384 spaces", Some(3), &format!("{}^", " ".repeat(TEXT))),
        drawn("a comment to the end", None, &filled(TEXT, "-")),
        drawn(
            "a long name",
            Some(4),
            &format!("entity ^{}", "n".repeat(TEXT - 7)),
        ),
        drawn("a long number", Some(3), &format!("^{}", "9".repeat(TEXT))),
    ]
}

/// A name of 32 or 33 bytes at each of its places.
fn names() -> Vec<LimitText> {
    let whole = |at: usize, n: &str| {
        let names = ["e", "d", "e", "a", "e", "s", "s", "d", "clk", "a"];
        let part = |index: usize| match index == at {
            true => n.to_string(),
            false => names[index].to_string(),
        };
        format!(
            "entity {} is port ( clk : in std_logic ; {} : in integer ) ; end {} ; architecture \
             {} of {} is begin process variable {} : integer := 0 ; begin {} := {} ; wait until \
             {} = '1' ; end process ; end {} ;",
            part(0),
            part(1),
            part(2),
            part(3),
            part(4),
            part(5),
            part(6),
            part(7),
            part(8),
            part(9)
        )
    };
    // A name of 32 bytes that stands at one place only is an offence against 5: where it stands, or
    // at the first place that should have it too.
    let mut texts = Vec::new();
    for at in 0..10 {
        let label = format!("a name of 33 bytes, place {at}");
        let name = format!("^{}", "n".repeat(NAME + 1));
        texts.push(drawn(&label, Some(4), &whole(at, &name)));
    }
    for at in [2, 4, 6, 7, 8, 9] {
        let label = format!("a name of 32 bytes, place {at}");
        let name = format!("^{}", "n".repeat(NAME));
        texts.push(drawn(&label, Some(5), &whole(at, &name)));
    }
    let long = "n".repeat(NAME);
    let all = format!(
        "entity {long} is port ( {long} : in std_logic ) ; end {long} ; architecture {long} of \
         {long} is begin process begin wait until {long} = '1' ; end process ; end {long} ;"
    );
    texts.push(drawn("names of 32 bytes", None, &all));
    texts
}

/// Names p0, p1, ..., with commas.
fn list(letter: &str, count: usize) -> String {
    let names: Vec<String> = (0..count).map(|at| format!("{letter}{at}")).collect();
    names.join(" , ")
}

fn ports() -> Vec<LimitText> {
    let mut texts = Vec::new();
    for (mode, value, limit, clock) in [("in", "", INPUTS, 1), ("out", ":= 0", OUTPUTS, 0)] {
        for count in [limit, limit + 1] {
            let number = over(count, limit);
            // One group, passed at its mode word.
            let names = list("p", count - clock);
            let group = format!("; {names} : ^{mode} integer {value}");
            let label = format!("{count} {mode} ports, one group");
            texts.push(drawn(&label, number, &text(&group, "", "")));
            // A group each, passed at the last one's mode word.
            let mut groups = String::new();
            for at in 1..=count - clock {
                let mark = if at == count - clock { "^" } else { "" };
                groups += &format!("; p{at} : {mark}{mode} integer {value} ");
            }
            let label = format!("{count} {mode} ports, a group each");
            texts.push(drawn(&label, number, &text(&groups, "", "")));
        }
    }
    texts
}

fn variables() -> Vec<LimitText> {
    let mut texts = Vec::new();
    for count in [VARIABLES, VARIABLES + 1] {
        let number = over(count, VARIABLES);
        let group = format!("variable {} , ^last : integer := 0 ;", list("v", count - 1));
        let label = format!("{count} variables, one group");
        texts.push(drawn(&label, number, &text("", &group, "")));
        let mut groups = String::new();
        for at in 1..=count {
            let mark = if at == count { "^" } else { "" };
            groups += &format!("variable {mark}v{at} : integer := 0 ; ");
        }
        let label = format!("{count} variables, a group each");
        texts.push(drawn(&label, number, &text("", &groups, "")));
    }
    texts
}

fn statements() -> Vec<LimitText> {
    let mut texts = Vec::new();
    for count in [STATEMENTS, STATEMENTS + 1] {
        let number = over(count, STATEMENTS);
        let ports = "; q : out integer := 7";
        for (label, one) in [
            ("nulls", "null ; "),
            ("variables", "s := s + u ; "),
            ("outputs", "q <= s - 1 ; "),
        ] {
            let body = one.repeat(count - 2);
            let label = format!("{count} statements, {label}");
            let body = format!("{body} wait until clk = '1' ; ^");
            texts.push(drawn(&label, number, &text(ports, INTEGER, &body)));
        }
        // The last statement is the second in an if that is the last but two.
        let body = "null ; ".repeat(count - 4);
        let body = format!("wait until clk = '1' ; {body} if s = 1 then null ; ^null ; end if ;");
        let whole = text("", INTEGER, &body).replace("end if ; wait until clk = '1' ;", "end if ;");
        let label = format!("{count} statements, the last in an if");
        texts.push(drawn(&label, number, &whole));
    }
    texts
}

fn depths() -> Vec<LimitText> {
    let mut texts = Vec::new();
    for depth in [DEPTH, DEPTH + 1] {
        let number = over(depth, DEPTH);
        // The innermost statement stands in the last of `depth - 1` others.
        let around = depth - 2;
        let wait = "wait until clk = '1' ;";
        for (label, open, inner, close) in [
            (
                "ifs",
                "if s = 0 then ".to_string(),
                "if s = 0 then ^null ; end if ; ".to_string(),
                "end if ; ".to_string(),
            ),
            (
                "elses",
                "if s = 0 then null ; else ".to_string(),
                "if s = 0 then ^null ; else null ; end if ; ".to_string(),
                "end if ; ".to_string(),
            ),
            (
                "whiles",
                "while s = 0 loop ".to_string(),
                format!("while s = 0 loop ^{wait} end loop ; {wait} "),
                format!("end loop ; {wait} "),
            ),
        ] {
            let body = format!("{}{inner}{}", open.repeat(around), close.repeat(around));
            let label = format!("depth {depth}, {label}");
            texts.push(drawn(&label, number, &text("", INTEGER, &body)));
        }
    }
    texts
}

fn items() -> Vec<LimitText> {
    let mut texts = Vec::new();
    // A sum of n terms has 2 n - 1 items, with a sign 2 n.
    for (count, sign) in [(ITEMS, "- "), (ITEMS + 1, "")] {
        let number = over(count, ITEMS);
        let terms = count.div_ceil(2);
        let sum = format!("{sign}{}^u", "s + ".repeat(terms - 1));
        for (label, body) in [
            ("an assignment", format!("s := {sum} ;")),
            (
                "parentheses",
                format!("s := {} ;", sum.replace('s', "( s )")),
            ),
        ] {
            let label = format!("{count} items in {label}");
            texts.push(drawn(&label, number, &text("", INTEGER, &body)));
        }
    }
    // A product of n factors has 2 n - 1 items, and its sign is one more.
    for operator in ["*", "/", "mod", "rem"] {
        for (count, product) in [
            (
                ITEMS,
                format!("- {}^u", format!("s {operator} ").repeat(31)),
            ),
            (
                ITEMS + 1,
                format!("{}^u", format!("s {operator} ").repeat(32)),
            ),
            (
                ITEMS + 1,
                format!("- {}s ^{operator} u", format!("s {operator} ").repeat(31)),
            ),
        ] {
            let number = over(count, ITEMS);
            let label = format!("{count} items with {operator}");
            let body = format!("s := {product} ;");
            texts.push(drawn(&label, number, &text("", INTEGER, &body)));
        }
    }
    // A condition's `=` and right side count too.
    for (count, condition) in [
        (ITEMS, format!("- {}s = ^u", "s + ".repeat(30))),
        (ITEMS + 1, format!("{}s = ^u", "s + ".repeat(31))),
    ] {
        for (label, body) in [
            ("an if", format!("if {condition} then null ; end if ;")),
            (
                "a while",
                format!("while {condition} loop wait until clk = '1' ; end loop ;"),
            ),
        ] {
            let label = format!("{count} items in {label}");
            let number = over(count, ITEMS);
            texts.push(drawn(&label, number, &text("", INTEGER, &body)));
        }
    }
    // And so does each `not`.
    for (count, chain) in [
        (ITEMS, format!("{} ^b", "not b and ".repeat(21))),
        (ITEMS + 1, format!("{} not ^b", "not b and ".repeat(21))),
    ] {
        let label = format!("{count} items with not");
        let group = "variable b : std_logic := '0' ;";
        let body = format!("b := {chain} ;");
        texts.push(drawn(&label, over(count, ITEMS), &text("", group, &body)));
    }
    texts
}

fn parentheses() -> Vec<LimitText> {
    let mut texts = Vec::new();
    for count in [PARENTHESES, PARENTHESES + 1] {
        let number = over(count, PARENTHESES);
        let open = format!("{}^( ", "( ".repeat(count - 1));
        let close = ") ".repeat(count);
        let body = format!("s := {open}s {close};");
        let label = format!("{count} open parentheses");
        texts.push(drawn(&label, number, &text("", INTEGER, &body)));
        let body = format!(
            "if {open}s {close}= {} s {close} then null ; end if ;",
            "( ".repeat(count)
        );
        let label = format!("{count} open parentheses, twice");
        texts.push(drawn(&label, number, &text("", INTEGER, &body)));
    }
    texts
}

fn literals() -> Vec<LimitText> {
    let mut texts = Vec::new();
    for (literal, number) in [
        ("2147483647", None),
        ("0002147483647", None),
        ("2147483648", Some(4)),
        ("4294967296", Some(4)),
        ("18446744073709551617", Some(4)),
        ("0002147483648", Some(4)),
    ] {
        let body = format!("s := ^{literal} ;");
        texts.push(drawn(literal, number, &text("", INTEGER, &body)));
        let body = format!("s := - ^{literal} ;");
        texts.push(drawn(literal, number, &text("", INTEGER, &body)));
        let ports = format!("; d : in std_logic := - ^{literal}");
        texts.push(drawn(literal, number, &text(&ports, "", "")));
        let ports = format!("; d : out integer := - ^{literal}");
        texts.push(drawn(literal, number, &text(&ports, "", "")));
        let group = format!("variable v : integer := ^{literal} ;");
        texts.push(drawn(literal, number, &text("", &group, "")));
    }
    texts
}

/// Texts of nearly 16,384 bytes: the most code, the most tokens, and all limits on nesting at once.
fn largest() -> Vec<LimitText> {
    let most = |statement: &str| {
        let room = TEXT - text("", INTEGER, "").len();
        let count = (room / statement.len()).min(STATEMENTS - 1);
        text("", INTEGER, &statement.repeat(count))
    };
    let code = format!("s:=-1{};", "+1".repeat(31));
    let open = "(".repeat(PARENTHESES);
    let close = ")".repeat(PARENTHESES);
    let deep = format!("s:={open}u{close};");
    let inner = format!("if {open}u{close}=0 then s:={open}u{close};end if;");
    let around = DEPTH - 2;
    let nested = format!(
        "{}{inner}{}",
        "if s=0 then ".repeat(around),
        "end if;".repeat(around)
    );
    vec![
        drawn("the most code", None, &most(&code)),
        drawn("the most tokens", None, &most(&deep)),
        drawn("all limits on nesting", None, &text("", INTEGER, &nested)),
    ]
}
