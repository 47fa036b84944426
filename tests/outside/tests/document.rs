//! What document 01 says by example: the trace of tally, P1 to P9, the examples of its table, and
//! the decisions on what it leaves open; the examples of change request 2. Texts are drawn with `^`
//! before the place.

use reference::board::REFERENCE;
use reference::generate::limits::drawn;
use reference::lexer::token_at;
use reference::loader::open;
use reference::trace::{decimals, direct_trace, split, trace};
use reference::verdict::verdict;

const TALLY: &str = "entity tally is
  port ( clk : in std_logic; d : in integer; total : out integer := 0 );
end tally;
architecture a of tally is
begin process
  variable s : integer := 0;
begin
  while s < 10 loop
    s := s + d;
    wait until clk = '1';
  end loop;
  total <= s;
  s := 0;
  wait until clk = '1';
end process;
end a;
";

/// A text with these statements before its last wait.
fn body(statements: &str) -> String {
    format!(
        "entity e is port ( clk, x : in std_logic; d : in integer; q : out integer := 0; y : out \
         std_logic := '0' ); end e; architecture a of e is begin process variable s, u : integer \
         := 0; variable b, c : std_logic := '0'; begin {statements} wait until clk = '1'; end \
         process; end a;"
    )
}

/// The refusal that is drawn with this number.
#[track_caller]
fn refused(number: u32, drawing: &str) {
    let case = drawn("", Some(number), drawing);
    assert_eq!(verdict(&case.text).err(), case.refusal, "{drawing}");
}

#[track_caller]
fn refused_body(number: u32, drawing: &str) {
    refused(number, &body(drawing));
}

#[track_caller]
fn accepted_body(statements: &str) {
    let verdict = verdict(body(statements).as_bytes());
    assert_eq!(verdict.err(), None, "{statements}");
}

fn image_of(text: &str) -> Vec<u8> {
    let mut buffer = vec![0; 65_535];
    let answer = (REFERENCE.compile)(text.as_bytes(), &mut buffer);
    assert_eq!(answer[0], 0, "{text}");
    buffer.truncate(answer[2] as usize);
    buffer
}

/// The last line of the trace of these statements over these rows.
fn last_row(statements: &str, rows: &str) -> String {
    let text = body(statements);
    let printed = trace(text.as_bytes(), rows.as_bytes());
    assert_eq!(printed, direct_trace(text.as_bytes(), rows.as_bytes()));
    printed.lines().last().unwrap_or("").to_string()
}

#[test]
fn p1_trace_of_tally() {
    let rows = b"7\n7\n1\n-5\n-2147483648\n20\n";
    let expected = "cycle wait lines total\n0 2 3 0\n1 2 3 0\n2 5 4 14\n3 2 3 14\n4 refused 16\n\
                    5 2 3 14\n";
    assert_eq!(trace(TALLY.as_bytes(), rows), expected);
    assert_eq!(direct_trace(TALLY.as_bytes(), rows), expected);
}

#[test]
fn p2_reaches_of_tally() {
    let image = image_of(TALLY);
    let opened = open(&image).expect("tally opens");
    let reaches: Vec<u16> = (0..6).map(|line| opened.line(line).reach).collect();
    assert_eq!(reaches, [3, 1, 0, 2, 1, 0]);
}

#[test]
fn p3_sections_of_tally() {
    let image = image_of(TALLY);
    assert_eq!(image.len(), 134);
    let pairs = [28u32, 14, 42, 72, 114, 20];
    let bytes: Vec<u8> = pairs.iter().flat_map(|field| field.to_le_bytes()).collect();
    assert_eq!(image[..4], [1, 0, 3, 0]);
    assert_eq!(image[4..28], bytes);
}

#[test]
fn p4_if_with_a_wait_alone() {
    let text = "entity e is port ( clk : in std_logic ); end e; architecture a of e is begin \
                ^process begin if '1' = '1' then wait until clk = '1'; end if; end process; end a;";
    refused(9, text);
}

#[test]
fn p5_p6_chains_and_signs() {
    refused_body(3, "b := b and c ^or b;");
    refused_body(3, "s := s - ^-1;");
}

#[test]
fn p7_not_binds_closest() {
    let without = image_of(&body("if not b = c then null; end if;"));
    let with = image_of(&body("if (not b) = c then null; end if;"));
    let other = image_of(&body("if not (b = c) then null; end if;"));
    assert_eq!(without, with);
    assert_ne!(without, other);
}

#[test]
fn p8_p9_bounds_of_integer() {
    let least = last_row("q <= -2147483647 - 1;", "0 0\n");
    assert_eq!(least, "0 1 2 -2147483648 0");
    let negative = last_row("q <= -(-2147483647 - 1);", "0 0\n");
    assert_eq!(negative, "0 refused 16");
    refused(
        4,
        "entity e is port ( o : out integer := -^2147483648 ); end e;",
    );
}

/// Change request 2's own examples, and the operator that is reached first.
#[test]
fn times_and_division() {
    let row = |expression: &str| last_row(&format!("q <= {expression};"), "0 0\n");
    for (expression, expected) in [
        ("(-7) mod 3", 2),
        ("(-7) rem 3", -1),
        ("7 mod (-3)", -2),
        ("-7 mod 3", -1),
        ("7 rem (-3)", 1),
        ("(-7) mod (-3)", -1),
        ("(-7) / 2", -3),
        ("7 / (-2)", -3),
        ("(-7) / (-2)", 3),
        ("2 + 3 * 4", 14),
        ("100 / 7 * 7", 98),
        ("100 - 100 / 7 * 7 mod 5", 97),
        ("(-65536) * 32768", -2147483648),
        ("(-2147483647 - 1) mod (-1)", 0),
        ("(-2147483647 - 1) rem (-1)", 0),
        ("46341 * 46340", 2147441940),
        ("-(7 mod 3)", -1),
        ("5 - 6 * 7 - 8", -45),
    ] {
        assert_eq!(
            row(expression),
            format!("0 1 2 {expected} 0"),
            "{expression}"
        );
    }
    for (expression, number) in [
        ("(-2147483647 - 1) / (-1)", 16),
        ("65536 * 32768", 16),
        ("-65536 * 32768", 16),
        ("46341 * 46341", 16),
        ("1 / 0", 18),
        ("1 mod 0", 18),
        ("1 rem 0", 18),
        ("0 / 0", 18),
        ("(-2147483647 - 1) mod 0", 18),
        ("(2147483647 + 1) / 0", 16),
        ("1 / 0 + (2147483647 + 1)", 18),
        ("(2147483647 + 1) + 1 / 0", 16),
        ("1 / (65536 * 65536)", 16),
        ("65536 * 65536 * (1 / 0)", 16),
        ("65536 * (65536 * (1 / 0))", 18),
        ("- (1 / 0)", 18),
        ("- (0 mod (2147483647 + 1))", 16),
    ] {
        assert_eq!(
            row(expression),
            format!("0 refused {number}"),
            "{expression}"
        );
    }
    // The place is the statement, also of a condition; both operands of `or` are evaluated.
    let text = body("null; s := 4; if (s = 4) or (1 / d = 1) then q <= 5 rem d; end if;");
    let image = image_of(&text);
    for (d, answer) in [(0, [18, 2, 0]), (3, [0, 0, 5])] {
        let mut state = [0; 49];
        (REFERENCE.fresh)(&image, &mut state);
        let mut other = state;
        let by_table = (REFERENCE.cycle)(&image, &mut state, &[0, d], &mut [0, 0]);
        let by_text = (REFERENCE.direct)(text.as_bytes(), &mut other, &[0, d], &mut [0, 0]);
        assert_eq!([by_table, by_text], [answer, answer]);
    }
}

/// "Codes are 29 to 32 in the order named"; the sign stands behind the whole first term.
#[test]
fn codes_of_times_and_division() {
    let code = |statement: &str| {
        let image = image_of(&body(statement));
        open(&image).expect("it opens").code.to_vec()
    };
    let (seven, three) = ([1, 7, 0, 0, 0], [1, 3, 0, 0, 0]);
    for (operator, byte) in [("*", 29), ("/", 30), ("mod", 31), ("rem", 32)] {
        let plain = [&seven[..], &three, &[byte]].concat();
        assert_eq!(code(&format!("q <= 7 {operator} 3;")), plain);
        let signed = [&plain[..], &[16]].concat();
        assert_eq!(code(&format!("q <= -7 {operator} 3;")), signed);
        let inside = [&seven[..], &[16], &three, &[byte]].concat();
        assert_eq!(code(&format!("q <= (-7) {operator} 3;")), inside);
        let left_first = [&seven[..], &three, &[byte], &three, &[29]].concat();
        assert_eq!(code(&format!("q <= 7 {operator} 3 * 3;")), left_first);
        let tighter = [&seven[..], &seven, &three, &[byte, 19]].concat();
        assert_eq!(code(&format!("q <= 7 - 7 {operator} 3;")), tighter);
    }
}

#[test]
fn examples_of_refusals_1_to_9() {
    refused(1, &format!("^{}", " ".repeat(16_385)));
    refused_body(2, "^a__b := 1;");
    refused(3, "entity ^5");
    refused_body(4, "s := ^2147483648;");
    refused_body(5, "^s <= 1;");
    refused_body(6, "s := d ^+ '1';");
    let valueless = "entity e is port ( clk : in std_logic ); end e; architecture a of e is begin \
                     process variable ^s : integer; begin wait until clk = '1'; end process; end \
                     a;";
    refused(7, valueless);
    refused_body(8, "b := ^clk;");
    refused_body(9, "^while '1' = '1' loop null; end loop;");
}

#[test]
fn example_of_refusal_10() {
    let mut buffer = [7; 133];
    let answer = (REFERENCE.compile)(TALLY.as_bytes(), &mut buffer);
    assert_eq!(answer, [10, 134, 0]);
    assert_eq!(buffer, [7; 133]);
}

#[test]
fn examples_of_refusals_11_to_13() {
    let opened = |image: &[u8]| (REFERENCE.open)(image);
    assert_eq!(opened(&[]), [11, 0, 0]);
    let mut image = image_of(TALLY);
    image[31] = 2;
    assert_eq!(opened(&image), [12, 0, 0]);
    // Line 2 is a wait; line 1 leads to it, and its reach no longer fits either.
    let mut image = image_of(TALLY);
    image[42 + 12 * 5 + 10] = 1;
    assert_eq!(opened(&image), [13, 4, 0]);
    // "the line count if only the code section is not filled".
    let mut image = image_of(TALLY);
    image.push(0);
    image[24] += 1;
    assert_eq!(opened(&image), [13, 6, 0]);
}

#[test]
fn examples_of_refusals_14_to_16() {
    let image = image_of(&body("q <= d + 1;"));
    let mut fresh = [0; 49];
    assert_eq!((REFERENCE.fresh)(&image, &mut fresh), [0, 0, 0]);
    let cycle = |place: i32, row: &[i32]| {
        let mut state = fresh;
        state[0] = place;
        (REFERENCE.cycle)(&image, &mut state, row, &mut [0, 0])
    };
    assert_eq!(cycle(512, &[2, 0]), [14, 0, 0]);
    assert_eq!(cycle(512, &[0]), [14, 0, 0]);
    assert_eq!(cycle(513, &[0, 0]), [15, 0, 0]);
    assert_eq!(cycle(0, &[0, 0]), [15, 0, 0], "line 0 is no wait");
    assert_eq!(cycle(512, &[0, 2147483647]), [16, 0, 0]);
    assert_eq!(cycle(1, &[1, 2147483646]), [0, 0, 2]);
    // 14 before 15 before 16.
    assert_eq!(cycle(513, &[2, 2147483647]), [14, 0, 0]);
    assert_eq!(cycle(513, &[0, 2147483647]), [15, 0, 0]);
}

#[test]
fn tokens() {
    refused_body(2, "b := ^'2';");
    refused_body(2, "b := ^'0;");
    refused_body(2, "s := s ^% 2;");
    refused_body(2, "s := 1^_000;");
    refused_body(2, "s := ^_s;");
    refused_body(2, "^process_ := 1;");
    refused_body(2, "s ^\u{b}:= 1;");
    refused_body(3, "s := 1^e5;");
    refused_body(3, "s := 5 ^loop;");
    refused_body(3, "s ^: = 1;");
    refused_body(3, "if s / ^= u then null; end if;");
    refused_body(3, "s := s *^* 2;");
    refused_body(3, "s := s /^/ 2;");
    refused_body(3, "^mod := 1;");
    refused_body(3, "s := ^REM;");
    refused_body(3, "wait until ^Mod = '1';");
    refused_body(5, "s := ^mod_1 + rem1;");
    accepted_body("if s/=u then s:=s/u*2mod 3REM 4;end if;");
    accepted_body("while s < 5loop wait until clk='1';end loop;");
    accepted_body("s:=s--1\n+-- any bytes: \u{e9} ' \" __ \r still the comment\n1;");
    accepted_body("S := U; NULL; Null; If B = '1' THEN s := 1; eNd iF;");
}

#[test]
fn token_at_places() {
    let text = b"entity e1 -- is\n <= a__b end";
    let at = |place: usize| String::from_utf8_lossy(token_at(text, place)).to_string();
    assert_eq!([at(0), at(1), at(7), at(8)], ["entity", "", "e1", ""]);
    assert_eq!([at(13), at(17), at(18)], ["", "<=", ""]);
    // "a malformed word is no token", and none starts behind it.
    assert_eq!([at(20), at(25), at(99)], ["", "", ""]);
    let long = [b"entity".to_vec(), vec![b' '; 16_379]].concat();
    assert_eq!(token_at(&long, 0), b"entity");
}

#[test]
fn grammar() {
    refused(3, "entity e is port ( ^) ; end e;");
    refused(3, "entity e is port ( a : in integer ; ^) ; end e;");
    refused(3, "entity e is port ( a : out std_logic := - ^'0' );");
    refused(3, "  -- nothing\n ^");
    refused_body(3, "b := not ^not c;");
    refused_body(3, "s := not ^-s;");
    refused_body(3, "s := ^+s;");
    refused_body(3, "s := s + ^-u;");
    refused_body(3, "s := s * ^-u;");
    refused_body(3, "s := 7 mod ^-3;");
    refused_body(3, "s := s * ^+u;");
    refused_body(3, "s := ^* s;");
    refused_body(3, "s := s rem ^;");
    refused_body(3, "s := s ^not mod u;");
    refused_body(3, "if s = 0 then ^end if;");
    refused_body(3, "if s = 0 then null; else ^end if;");
    refused_body(3, "wait until clk = ^'0';");
    refused_body(3, "wait until ^( clk = '1' );");
    accepted_body("if s = -u then null; end if;");
    accepted_body("if -s + 1 < -(u - 1) and not (b = c) then null; end if;");
}

#[test]
fn names() {
    refused_body(5, "s := ^zz;");
    refused_body(5, "^zz := yy;");
    refused_body(5, "s := ^q;");
    refused_body(5, "^q := 1;");
    refused_body(5, "^d := 1;");
    refused_body(5, "^clk <= '1';");
    refused_body(5, "wait until ^zz = '1';");
    refused_body(5, "s := ^e;");
    let twice = "entity e is port ( clk, d : in std_logic; ^D : in integer ); end f; architecture \
                 a of e is begin process begin wait until clk = '1'; end process; end a;";
    refused(5, twice);
    let differs = "entity e is port ( clk : in std_logic ); end ^f; architecture a of g is begin \
                   process begin wait until clk = '1'; end process; end a;";
    refused(5, differs);
}

#[test]
fn types() {
    refused_body(6, "if (s = u) ^= (b = c) then null; end if;");
    refused_body(6, "if b ^< c then null; end if;");
    refused_body(6, "^if b then null; end if;");
    refused_body(6, "^s := b;");
    refused_body(6, "^b := s = u;");
    // What holds a wrong operator is not judged; what stands beside it is.
    refused_body(6, "b := s ^+ c + 1 = u;");
    refused_body(6, "b := (s ^+ c) and (s - c);");
    refused_body(6, "if ^- b = s then null; end if;");
    for operator in ["*", "/", "mod", "rem"] {
        refused_body(6, &format!("s := s ^{operator} b;"));
        refused_body(6, &format!("b := b ^{operator} c;"));
        refused_body(6, &format!("s := (s = u) ^{operator} u;"));
        refused_body(6, &format!("^b := s {operator} u;"));
        refused_body(6, &format!("^if s {operator} u then null; end if;"));
        refused_body(6, &format!("s := s + b ^{operator} u - c;"));
        // `not` is read on the first operand alone.
        refused_body(6, &format!("s := ^not s {operator} u;"));
        refused_body(6, &format!("s := not b ^{operator} c;"));
        refused_body(6, &format!("s := s ^{operator} not c;"));
    }
}

#[test]
fn clocks_and_classes() {
    // A wait on anything declared but no std_logic input; the first wait of the text is judged.
    refused_body(8, "wait until ^q = '1';");
    refused_body(8, "wait until ^d = '1';");
    refused_body(8, "wait until ^b = '1';");
    refused_body(8, "b := clk; wait until ^s = '1';");
    refused_body(8, "wait until x = '1'; b := ^x;");
    let other = body("wait until x = '1';").replace("until clk", "until ^clk");
    refused(8, &other);
    refused_body(
        9,
        "while s < 1 loop ^while s < 2 loop null; end loop; end loop;",
    );
    refused_body(
        9,
        "^while s < 1 loop if s = 1 then wait until clk = '1'; end if; end loop;",
    );
    // What holds a while without a class has none either, however deep.
    refused_body(
        9,
        "while s < 1 loop while s < 2 loop ^while s < 3 loop null; end loop; end loop; end loop;",
    );
    refused_body(
        9,
        "while s < 1 loop if s = 2 then while s < 2 loop ^while s < 3 loop null; end loop; wait \
         until clk = '1'; end loop; end if; end loop;",
    );
    let none = "entity e is port ( clk : in std_logic ); end e; architecture a of e is begin \
                ^process begin null; end process; end a;";
    refused(9, none);
}

#[test]
fn rows_of_the_trace() {
    let readable = |row: &str| decimals(row.as_bytes());
    assert_eq!(readable(""), Some(vec![]));
    assert_eq!(readable("-0 007 -5"), Some(vec![0, 7, -5]));
    assert_eq!(
        readable("-2147483648 2147483647"),
        Some(vec![i32::MIN, i32::MAX])
    );
    assert_eq!(readable(&"0".repeat(5000)), Some(vec![0]));
    for row in [
        "+1", "1  2", " 1", "1 ", "1\r", "1\t2", "-", "--1", "a", "1 -",
    ] {
        assert_eq!(readable(row), None, "{row:?}");
    }
    for row in ["2147483648", "-2147483649", &"9".repeat(5000)] {
        assert_eq!(readable(row), None, "{row:?}");
    }
    assert_eq!(split(b""), Vec::<&[u8]>::new());
    assert_eq!(split(b"1\n\n2"), [&b"1"[..], b"", b"2"]);
    assert_eq!(split(b"\n"), [b""]);
    let tally = |rows: &[u8]| trace(TALLY.as_bytes(), rows);
    assert_eq!(tally(b""), "cycle wait lines total\n");
    assert_eq!(tally(&[b'1'; 65_537]), "refused 14 0\n");
    assert_eq!(tally(&[b'0'; 65_536]), "cycle wait lines total\n0 2 3 0\n");
    assert_eq!(trace(b"entity", &[b'1'; 65_537]), "refused 3 6\n");
}

/// "Stages in table order": of two faults the lower number is given, wherever the two stand; of 3
/// and 4 the one that stands first.
#[test]
fn stages() {
    let faults = [
        (2, "", "^a__b := 1;"),
        (3, "", "s := ^;"),
        (4, "", "s := ^2147483648;"),
        (5, "", "s := ^zz;"),
        (6, "", "^b := s;"),
        (7, "variable ^g : integer;", ""),
        (8, "", "b := ^clk;"),
        (9, "", "^while s < 1 loop null; end loop;"),
    ];
    for first in faults {
        for second in faults {
            let single = (first.0, second.0) == (4, 3);
            let given = if single || first.0 <= second.0 {
                first
            } else {
                second
            };
            // Only the fault that is given keeps its mark.
            let part = |fault: (u32, &str, &str), at: usize| {
                let marked = fault.0 == given.0 && (first.0 != second.0 || at == 0);
                let mark = if marked { "^" } else { "" };
                (fault.1.replace('^', mark), fault.2.replace('^', mark))
            };
            let (group, one) = part(first, 0);
            let (other_group, other) = part(second, 1);
            let other_group = other_group.replace("g :", "h :");
            let text = body(&format!("{one} {other}"));
            let groups = format!("process {group} {other_group} variable s,");
            let text = text.replacen("process variable s,", &groups, 1);
            refused(given.0, &text);
        }
    }
    let mut buffer = [0; 4];
    let text = body("while s < 1 loop null; end loop;");
    assert_eq!((REFERENCE.compile)(text.as_bytes(), &mut buffer)[0], 9);
    let text = format!("a__b{}", " ".repeat(16_384));
    assert_eq!((REFERENCE.compile)(text.as_bytes(), &mut buffer)[0], 1);
}
