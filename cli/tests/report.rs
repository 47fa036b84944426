//! Reports: pages that are nested well, need nothing from elsewhere, escape what files hold, and
//! show the values of the traces.

mod markup;
mod processes;

use markup::{plain, read, words, Piece};
use processes::{example, examples, text, Process};
use rabtishu_cli::report::{page, MOST_BEATS};
use rabtishu_cli::signals::Kind;
use rabtishu_cli::text::Text;
use std::collections::{BTreeMap, BTreeSet};

/// Elements that pages have. None of them runs or fetches anything.
const ELEMENTS: [&str; 43] = [
    "html",
    "head",
    "meta",
    "title",
    "style",
    "body",
    "main",
    "header",
    "footer",
    "section",
    "h1",
    "h2",
    "p",
    "br",
    "strong",
    "b",
    "i",
    "code",
    "mark",
    "span",
    "dl",
    "div",
    "dt",
    "dd",
    "table",
    "caption",
    "thead",
    "tbody",
    "tr",
    "th",
    "td",
    "details",
    "summary",
    "figure",
    "figcaption",
    "svg",
    "defs",
    "pattern",
    "g",
    "path",
    "rect",
    "text",
    "hr",
];

/// Attributes that pages have: no reference, no event, no style.
const ATTRIBUTES: [&str; 22] = [
    "lang",
    "charset",
    "name",
    "content",
    "class",
    "id",
    "scope",
    "tabindex",
    "role",
    "aria-label",
    "aria-hidden",
    "viewBox",
    "width",
    "height",
    "x",
    "y",
    "d",
    "patternUnits",
    "patternTransform",
    "colspan",
    "rowspan",
    "title",
];

fn page_of(name: &str, text: &[u8], rows: &[u8]) -> String {
    page(name, &Text::of("process.vhd", text), rows)
}

fn report(process: &Process) -> String {
    page_of(&process.name, &process.text, &process.rows)
}

/// Pieces of a page that is nested well and needs nothing from elsewhere.
fn checked(page: &str) -> Vec<Piece> {
    let pieces = read(page).unwrap_or_else(|why| panic!("{why}"));
    let mut ids = BTreeSet::new();
    for piece in &pieces {
        if let Piece::Open {
            name, attributes, ..
        } = piece
        {
            assert!(ELEMENTS.contains(&name.as_str()), "{name}");
            for (key, value) in attributes {
                assert!(ATTRIBUTES.contains(&key.as_str()), "{name} {key}");
                assert!(key != "id" || ids.insert(value.clone()), "{value} twice");
            }
        }
    }
    let style = between(page, "<style>", "</style>");
    assert!(!style.contains("@import") && !style.contains("//"));
    assert_eq!(
        style.matches("url(").count(),
        style.matches("url(#hatching)").count()
    );
    assert!(ids.contains("hatching"));
    pieces
}

fn between<'a>(page: &'a str, from: &str, to: &str) -> &'a str {
    let start = page.find(from).unwrap_or_else(|| panic!("no {from}")) + from.len();
    let end = page[start..].find(to).unwrap_or_else(|| panic!("no {to}"));
    &page[start..start + end]
}

/// The parts of a page that an element with this tag opens and this one closes.
fn parts<'a>(page: &'a str, open: &str, close: &str) -> Vec<&'a str> {
    let parts = page.split(open).skip(1);
    parts
        .map(|part| part.split(close).next().unwrap_or(""))
        .collect()
}

/// What an element with this class says, for all such elements.
fn said(page: &str, class: &str) -> Vec<String> {
    let attribute = format!("class=\"{class}\"");
    let starts = page.split(&attribute).skip(1);
    starts.map(|part| plain(between(part, ">", "<"))).collect()
}

#[test]
fn every_example_is_one_sound_page() {
    for process in examples() {
        let page = report(&process);
        let pieces = checked(&page);
        let words = words(&pieces);
        assert!(page.contains(&format!("<title>{}: ", process.name)));
        for line in String::from_utf8(process.text).unwrap().lines() {
            assert!(words.contains(line), "{}: {line}", process.name);
        }
        assert!(words.contains("Accepted"));
        assert!(page.contains("<html lang=\"en\">"));
    }
}

#[test]
fn tables_have_captions_and_headings() {
    let page = report(&example("countdown"));
    for table in parts(&page, "<table", "</table>") {
        assert!(table.contains("<caption>") && table.contains("<th scope=\"col\">"));
        assert!(
            !table.contains("<th scope=\"col\"></th>"),
            "an empty heading"
        );
        let rows = table.matches("<tr").count() - 1;
        assert_eq!(table.matches("<th scope=\"row\">").count(), rows);
    }
    for svg in parts(&page, "<svg class=\"chart\"", "</svg>") {
        assert!(svg.contains("role=\"img\"") && svg.contains("<title>"));
    }
}

/// The table of numbers has what the stored trace has.
#[test]
fn numbers_are_those_of_the_stored_traces() {
    for process in examples() {
        let page = report(&process);
        let (names, traced) = (process.names(), process.traced());
        let table = between(&page, "<table class=\"numbers\">", "</table>");
        let rows = parts(between(table, "<tbody>", "</tbody>"), "<tr", "</tr>");
        assert_eq!(rows.len(), traced.len());
        for (row, expected) in rows.iter().zip(traced) {
            let cells = parts(row, "<td>", "</td>");
            let wait = names.inputs.len();
            match expected {
                Err(number) => assert_eq!(cells[wait], format!("refused {number}")),
                Ok((line, lines, outputs)) => {
                    let found: Vec<i64> = cells[wait..]
                        .iter()
                        .map(|cell| cell.parse().unwrap())
                        .collect();
                    assert_eq!(found[..2], [line, lines]);
                    assert_eq!(found[2 + names.variables.len()..], outputs);
                }
            }
        }
    }
}

/// The values that the first output's steps stand for, as the trace has them.
#[test]
fn the_countdown_shows_the_values_of_the_trace() {
    let process = example("countdown");
    let page = report(&process);
    let chart = between(&page, "<title>minutes, beats 0 to 14</title>", "</svg>");
    let mut expected: Vec<String> = Vec::new();
    for row in process.traced().into_iter().flatten() {
        let value = row.2[0].to_string();
        if expected.last() != Some(&value) {
            expected.push(value);
        }
    }
    assert_eq!(said(chart, "value"), expected);
}

#[test]
fn waves_show_runs_of_values() {
    let page = report(&example("tally"));
    let chart = between(&page, "<section id=\"waveforms\">", "</svg>");
    let expected = "7 1 -5 -2147483648 20 2 5 2 3 4 3 0 3 7 14 0 -5 15 0 14";
    assert_eq!(said(chart, "value").join(" "), expected);
    assert_eq!(said(chart, "name"), ["d", "wait", "lines", "s", "total"]);
    assert_eq!(said(chart, "axis"), ["0", "1", "2", "3", "4", "5"]);
    assert_eq!(said(chart, "bad"), ["16"]);
}

/// How high the first wave of a lane is in the middle of each column of its chart, from the top.
fn heights(chart: &str, lane: &str) -> Vec<f64> {
    let columns = path(between(chart, "<path class=\"grid\" d=\"", "\""));
    let columns: Vec<f64> = columns.iter().step_by(2).map(|point| point.0).collect();
    let wave = path(between(lane, "<path class=\"wave\" d=\"", "\""));
    let height = |x: f64| {
        let mut flats = wave.windows(2).filter(|ends| ends[0].1 == ends[1].1);
        let flat = flats.find(|ends| ends[0].0 <= x && x <= ends[1].0);
        flat.expect("a level")[0].1
    };
    let middles = columns.windows(2).map(|ends| (ends[0] + ends[1]) / 2.0);
    middles.map(height).collect()
}

/// Whether a bit is drawn above its name's middle, beat by beat.
fn levels(chart: &str, name: &str) -> Vec<bool> {
    let (before, lane) = chart
        .split_once(&format!(">{name}</text>"))
        .expect("a lane");
    let baseline = before.rsplit("y=\"").next().unwrap().trim_end_matches('"');
    let middle = baseline.parse::<f64>().unwrap() - 4.0;
    let heights = heights(chart, lane).into_iter();
    heights.map(|height| height < middle).collect()
}

/// The values of an output after each row; refused rows keep what was there.
fn kept(process: &Process, output: usize, initial: i64) -> Vec<i64> {
    let mut last = initial;
    let rows = process.traced().into_iter().map(|row| {
        last = row.map_or(last, |(_, _, outputs)| outputs[output]);
        last
    });
    rows.collect()
}

/// Steps are as far from each other as their values.
#[test]
fn steps_are_those_of_the_stored_traces() {
    let mut steps = 0;
    for process in examples() {
        let (page, names) = (report(&process), process.names());
        let outputs = names.outputs.iter().enumerate();
        for (index, signal) in outputs.filter(|(_, signal)| signal.kind == Kind::Integer) {
            let charts = parts(&page, &format!("<title>{}, beat", signal.name), "</svg>");
            let drawn: Vec<f64> = charts
                .iter()
                .flat_map(|chart| heights(chart, chart))
                .collect();
            let values = kept(&process, index, 0);
            let (low, high) = (*values.iter().min().unwrap(), *values.iter().max().unwrap());
            let at = |value: i64| drawn[values.iter().position(|&it| it == value).unwrap()];
            let unit = (at(low) - at(high)) / (high - low).max(1) as f64;
            assert!(low == high || unit > 0.0);
            for (&value, height) in values.iter().zip(&drawn) {
                let expected = at(low) - unit * (value - low) as f64;
                assert!(
                    (height - expected).abs() < 0.2,
                    "{} {}",
                    process.name,
                    signal.name
                );
            }
            steps += 1;
        }
    }
    assert!(steps > 8, "only {steps} outputs");
}

/// Bits are high exactly where the trace has 1.
#[test]
fn square_waves_are_those_of_the_stored_traces() {
    let mut waves = 0;
    for process in examples() {
        let (page, names) = (report(&process), process.names());
        let section = between(&page, "<section id=\"waveforms\">", "</section>");
        let charts = parts(section, "<svg class=\"chart\"", "</svg>");
        let bits = names.outputs.iter().enumerate();
        for (index, signal) in bits.filter(|(_, signal)| signal.kind == Kind::Bit) {
            let drawn: Vec<bool> = charts
                .iter()
                .flat_map(|chart| levels(chart, &signal.name))
                .collect();
            let expected = kept(&process, index, 0).into_iter().map(|value| value == 1);
            assert_eq!(
                drawn,
                expected.collect::<Vec<_>>(),
                "{} {}",
                process.name,
                signal.name
            );
            waves += 1;
        }
    }
    assert!(waves > 8, "only {waves} waves");
}

#[test]
fn refused_rows_are_hatched_and_explained() {
    for process in examples() {
        let page = report(&process);
        let refused = process.traced().iter().filter(|row| row.is_err()).count();
        let waves = between(&page, "<section id=\"waveforms\">", "</section>");
        assert_eq!(
            waves.matches("class=\"hatched\"").count(),
            refused,
            "{}",
            process.name
        );
        let section = between(&page, "<section id=\"refused\">", "</section>");
        assert_eq!(
            section.matches("class=\"chip bad\"").count(),
            refused,
            "{}",
            process.name
        );
    }
    let words = words(&checked(&report(&example("headway"))));
    assert!(words.contains("a divisor is 0 in line 10, percent <= 100 * gap / (3600 / trains)"));
    assert!(words.contains("passed is 2, and a std_logic is 0 or 1"));
    let odd = page_of("tally", &example("tally").text, b"<b>\n1 2\n");
    let words = markup::words(&checked(&odd));
    assert!(
        words.contains("the row cannot be read") && words.contains("the row has 2 of 1 values")
    );
}

#[test]
fn files_cannot_put_tags_into_the_page() {
    let mut text = b"-- <script>alert('x')</script> & \xFF\x00 \xC3\xA9 \"</td>\"\n".to_vec();
    text.extend(example("tally").text);
    let page = page_of("<img src=x>&\"'", &text, b"<script>\n7\n\xFF\x1B\n");
    let words = words(&checked(&page));
    assert!(!page.contains("<script") && !page.contains("<img"));
    assert!(words.contains("-- <script>alert('x')</script> & \u{FFFD}\u{FFFD} é \"</td>\""));
    assert!(words.contains("<img src=x>&\"': Rabtishu report"));
}

#[test]
fn a_refused_text_has_its_place_and_no_pictures() {
    let text = String::from_utf8(example("tally").text).unwrap();
    let page = page_of("tally", text.replace("s + d;", "s + d").as_bytes(), b"7\n");
    let words = words(&checked(&page));
    assert!(
        words.contains("Refused by 3, no sentence at line 8, column 5"),
        "{words}"
    );
    assert!(page.contains("<code>wait</code> cannot stand here<br>Expected: <code>;</code>, "));
    assert!(words.contains("Look at the token at the place"));
    assert!(page.contains("<mark class=\"bad\">wait</mark>"));
    assert!(!page.contains("class=\"chart\"") && !page.contains("id=\"table\""));
}

#[test]
fn every_place_of_a_refusal_is_shown() {
    let tally = String::from_utf8(example("tally").text).unwrap();
    let cases: [(Vec<u8>, &str); 6] = [
        (Vec::new(), "Refused by 3, no sentence at line 1, column 1"),
        (
            b"entity".to_vec(),
            "Refused by 3, no sentence at line 1, column 7",
        ),
        (vec![b' '; 16_385], "Refused by 1, text too long"),
        (
            tally.replace(" end a;", "").into_bytes(),
            "Refused by 3, no sentence at line 14, column 1",
        ),
        (
            tally.replace("s + d", "s + é").into_bytes(),
            "Refused by 2, no token at line 7, column 14",
        ),
        (
            [tally.as_bytes(), b"\xFF"].concat(),
            "Refused by 2, no token at line 14, column 1",
        ),
    ];
    for (text, expected) in cases {
        let words = words(&checked(&page_of("x", &text, b"")));
        assert!(words.contains(expected), "{expected}");
        assert!(words.contains('!'), "{expected}: no mark");
    }
}

#[test]
fn cut_texts_and_odd_bytes_give_sound_pages() {
    let Process { text, rows, .. } = example("tally");
    for end in (0..text.len()).step_by(7) {
        checked(&page_of("x", &text[..end], &rows));
    }
    for byte in 0..=255u8 {
        let mut text = text.clone();
        text[200] = byte;
        checked(&page_of("x", &text, &[byte, b'\n', b'7']));
    }
}

#[test]
fn many_beats_wrap_and_the_rest_is_counted() {
    let process = example("countdown");
    let rows = b"1 0 12\n".repeat(MOST_BEATS + 500);
    let page = page_of("long", &process.text, &rows);
    let pieces = checked(&page);
    assert!(words(&pieces).contains("500 more beats are left out."));
    let waves = between(&page, "<section id=\"waveforms\">", "</section>");
    let charts = parts(waves, "<svg class=\"chart\"", "</svg>");
    assert!(charts.len() >= MOST_BEATS / 40);
    assert!(waves.contains(&format!("to {}</figcaption>", MOST_BEATS - 1)));
    in_their_frames(&pieces);
}

#[test]
fn no_rows_and_no_integer_outputs() {
    let process = example("parity_behavior");
    assert!(words(&checked(&page_of("x", &process.text, b""))).contains("There are no rows."));
    assert!(words(&checked(&report(&process))).contains("The process has no integer output."));
}

/// Everything that a chart draws lies inside of it, and every chart fits on a sheet of A4.
#[test]
fn charts_are_not_clipped() {
    for process in examples() {
        in_their_frames(&checked(&report(&process)));
    }
    in_their_frames(&checked(&widest()));
}

/// The most signals, long names and long values.
fn widest() -> String {
    let list = |prefix: &str, count: usize| {
        let names = (0..count).map(|index| format!("{prefix}{index:02}"));
        names.collect::<Vec<_>>().join(", ")
    };
    let (bits, integers) = (
        list("bit", 8),
        list("an_input_with_a_name_of_32_byte", 8).replace("byte0", "byte"),
    );
    let outputs = list("o", 16);
    let ports =
        format!("{bits} : in std_logic; {integers} : in integer; {outputs} : out integer := -1");
    let variables = format!("variable {} : integer := 0;", list("v", 32));
    let text = text(&ports, &variables, "o00 <= bit_sum; v00 := 1 - v00;")
        .replace("bit_sum", "an_input_with_a_name_of_32_byte7");
    let rows: String = (0..90)
        .map(|row| {
            format!(
                "{}{} -2147483648\n",
                "1 ".repeat(8),
                [&row.to_string(); 7].map(|s| s.as_str()).join(" ")
            )
        })
        .collect();
    page_of("widest", text.as_bytes(), rows.as_bytes())
}

fn in_their_frames(pieces: &[Piece]) {
    let mut frame = (0.0, 0.0);
    let mut charts = 0;
    for piece in pieces {
        let Piece::Open {
            name,
            attributes,
            within,
        } = piece
        else {
            continue;
        };
        if let Some(size) = attributes.get("viewBox") {
            let numbers = numbers(size);
            frame = (numbers[2], numbers[3]);
            charts += 1;
            assert!(frame.1 <= 1000.0, "higher than a sheet: {}", frame.1);
        }
        if within.iter().any(|it| it == "svg") && !within.iter().any(|it| it == "defs") {
            for (x, y) in points(name, attributes) {
                assert!(
                    (0.0..=frame.0).contains(&x) && (0.0..=frame.1).contains(&y),
                    "{name} {x} {y} in {frame:?}"
                );
            }
        }
    }
    assert!(charts > 0);
}

fn numbers(words: &str) -> Vec<f64> {
    let words = words.split(|c: char| c.is_ascii_alphabetic() || c == ' ');
    words
        .filter(|word| !word.is_empty())
        .map(|word| word.parse().expect("a number"))
        .collect()
}

/// The corners of a shape. Paths have the absolute commands M, L, H, V and Z alone.
fn points(name: &str, attributes: &BTreeMap<String, String>) -> Vec<(f64, f64)> {
    let number = |key: &str| {
        attributes
            .get(key)
            .map_or(0.0, |word| word.parse().expect("a number"))
    };
    match name {
        "rect" => {
            let (x, y) = (number("x"), number("y"));
            vec![(x, y), (x + number("width"), y + number("height"))]
        }
        "text" => vec![(number("x"), number("y"))],
        "path" => path(&attributes["d"]),
        _ => Vec::new(),
    }
}

fn path(commands: &str) -> Vec<(f64, f64)> {
    let mut points = vec![];
    let mut last = (0.0, 0.0);
    let starts: Vec<usize> = commands
        .match_indices(|c: char| c.is_ascii_alphabetic())
        .map(|(at, _)| at)
        .collect();
    for (index, &start) in starts.iter().enumerate() {
        let end = starts.get(index + 1).copied().unwrap_or(commands.len());
        let values = numbers(&commands[start..end]);
        last = match &commands[start..start + 1] {
            "M" | "L" => (values[0], values[1]),
            "H" => (values[0], last.1),
            "V" => (last.0, values[0]),
            "Z" => last,
            other => panic!("{other} in a path"),
        };
        points.push(last);
    }
    points
}

/// The colours of a scheme.
fn colours(style: &str) -> BTreeMap<String, [f64; 3]> {
    let mut all = BTreeMap::new();
    for entry in style.split(';') {
        let Some((name, value)) = entry.rsplit_once(": #") else {
            continue;
        };
        let name = name.rsplit("--").next().unwrap().to_string();
        let part = |at: usize| f64::from(u8::from_str_radix(&value[at..at + 2], 16).unwrap());
        all.insert(name, [part(0), part(2), part(4)]);
    }
    all
}

/// WCAG 2: the ratio of two colours' luminances.
fn contrast(one: [f64; 3], other: [f64; 3]) -> f64 {
    let luminance = |colour: [f64; 3]| {
        let part = |value: f64| match value / 255.0 {
            low if low <= 0.04045 => low / 12.92,
            high => ((high + 0.055) / 1.055).powf(2.4),
        };
        0.2126 * part(colour[0]) + 0.7152 * part(colour[1]) + 0.0722 * part(colour[2])
    };
    let (one, other) = (luminance(one) + 0.05, luminance(other) + 0.05);
    (one / other).max(other / one)
}

#[test]
fn words_stand_out_in_light_and_dark() {
    let page = report(&example("tally"));
    let style = between(&page, "<style>", "</style>");
    let (light, rest) = style
        .split_once("@media screen and (prefers-color-scheme: dark)")
        .unwrap();
    let dark = between(rest, ":root {", "}");
    let pairs = [
        ("ink", "paper"),
        ("ink", "panel"),
        ("ink", "good-panel"),
        ("ink", "bad-panel"),
        ("soft", "paper"),
        ("soft", "panel"),
        ("wait", "paper"),
        ("wait", "wait-panel"),
        ("bad", "paper"),
        ("bad", "bad-panel"),
        ("good", "good-panel"),
    ];
    for scheme in [light, dark] {
        let colours = colours(scheme);
        for (words, ground) in pairs {
            let ratio = contrast(colours[words], colours[ground]);
            assert!(ratio >= 4.5, "{words} on {ground}: {ratio:.2}");
        }
    }
}

#[test]
fn paper_is_a4_and_light() {
    let page = report(&example("tally"));
    assert!(page.contains("@page { size: A4;"));
    let print = between(&page, "@media print {", "</style>");
    assert!(
        print.contains("color-scheme: light") && print.contains(".scroll { overflow: visible; }")
    );
}

/// Where Chromium is installed the page of every example prints on A4, and none of it is missing.
#[test]
fn pages_print_in_chromium() {
    let folder = std::env::temp_dir().join(format!("rabtishu-print-{}", std::process::id()));
    std::fs::create_dir_all(&folder).unwrap();
    for name in ["tally", "headway"] {
        let (from, to) = (
            folder.join(format!("{name}.html")),
            folder.join(format!("{name}.pdf")),
        );
        std::fs::write(&from, report(&example(name))).unwrap();
        if !printed(&from, &to) {
            eprintln!("report: there is no Chromium that prints here");
            break;
        }
        let pdf = std::fs::read(&to).unwrap();
        let pages = String::from_utf8_lossy(&pdf).into_owned();
        assert!(pages.starts_with("%PDF"), "{name}");
        // A4 is 595.28 by 841.89 points.
        let boxes: Vec<&str> = pages.split("/MediaBox [0 0 ").skip(1).collect();
        assert!(!boxes.is_empty(), "{name}");
        assert!(
            boxes
                .iter()
                .all(|size| size.starts_with("59") && size.contains(" 84")),
            "{name}"
        );
    }
    std::fs::remove_dir_all(&folder).unwrap();
}

/// Prints a page by Chromium, if there is one and it ends within a minute.
fn printed(from: &std::path::Path, to: &std::path::Path) -> bool {
    let started = std::process::Command::new("chromium")
        .args([
            "--headless",
            "--no-sandbox",
            "--disable-gpu",
            "--no-pdf-header-footer",
        ])
        .arg(format!("--print-to-pdf={}", to.display()))
        .arg(format!("file://{}", from.display()))
        .stdout(std::process::Stdio::null())
        .stderr(std::process::Stdio::null())
        .spawn();
    let Ok(mut child) = started else { return false };
    for _ in 0..600 {
        if let Ok(Some(status)) = child.try_wait() {
            return status.success() && to.exists();
        }
        std::thread::sleep(std::time::Duration::from_millis(100));
    }
    let _ = child.kill();
    false
}
