//! Texts from the published sources, adapted to the language of document 01, with the results that
//! the sources print or that follow from them.

use reference::trace::{direct_trace, trace};
use std::fs;
use std::path::Path;

/// The trace of an example over these rows, without header and row numbers.
fn rows_of(name: &str, rows: &str) -> Vec<String> {
    let folder = Path::new(env!("CARGO_MANIFEST_DIR")).join("../../examples");
    let text = fs::read(folder.join(name).join("process.vhd")).expect("the example is there");
    let printed = trace(&text, rows.as_bytes());
    assert_eq!(printed, direct_trace(&text, rows.as_bytes()));
    let lines = printed.lines().skip(1);
    let number = |line: &str| line.find(' ').map_or(0, |at| at + 1);
    lines.map(|line| line[number(line)..].to_string()).collect()
}

/// The columns from this one on, of every row.
fn columns(rows: &[String], from: usize) -> Vec<String> {
    let cut = |row: &String| {
        let parts: Vec<&str> = row.split(' ').skip(from).collect();
        parts.join(" ")
    };
    rows.iter().map(cut).collect()
}

#[test]
fn greatest_common_divisor() {
    let rows = rows_of("gcd", "0 0 0\n6 4 1\n6 4 0\n6 4 0\n6 4 0\n6 4 0\n");
    let expected = [
        "1 2 0 0", "10 8 0 0", "10 5 0 0", "10 5 0 0", "15 6 1 2", "1 2 1 2",
    ];
    assert_eq!(rows, expected);
}

/// The printed circuit does not order x and y again: from 5 and 1 on it leaves the range.
#[test]
fn greatest_common_divisor_out_of_range() {
    let rows = rows_of("gcd", &format!("5 1 1\n{}", "5 1 0\n".repeat(60)));
    let first = rows.iter().position(|row| row == "refused 16");
    assert_eq!(first, Some(43));
    assert!(rows[43..].iter().all(|row| row == "refused 16"));
}

#[test]
fn counter_cell_both_ways() {
    let rows = "1\n1\n0\n1\n1\n1\n0\n1\n";
    let behavior = rows_of("cell_behavior", rows);
    let implementation = rows_of("cell_implementation", rows);
    let outputs = ["0 0", "1 1", "0 1", "0 0", "1 1", "0 0", "0 0", "1 1"];
    assert_eq!(columns(&behavior, 2), outputs);
    assert_eq!(columns(&implementation, 2), outputs);
    let lines = |rows: &[String]| -> Vec<String> {
        let second = |row: &String| row.split(' ').nth(1).unwrap_or("").to_string();
        rows.iter().map(second).collect()
    };
    assert_eq!(lines(&behavior).join(" "), "1 5 4 5 5 5 4 5");
    assert_eq!(lines(&implementation).join(" "), "1 4 4 4 4 4 4 4");
}

#[test]
fn parity_both_ways() {
    let rows = "1\n1\n0\n1\n1\n1\n0\n1\n";
    let behavior = columns(&rows_of("parity_behavior", rows), 2);
    let implementation = columns(&rows_of("parity_implementation", rows), 2);
    assert_eq!(behavior.join(" "), "1 0 0 1 0 1 1 0");
    assert_eq!(implementation, behavior);
}

#[test]
fn marking() {
    let rows = rows_of("marking", "0 1 0 0\n1 1 0 1\n1 1 2 0\n1 1 1 3\n0 1 9 9\n");
    let expected = ["7 6 1 1", "7 6 0 0", "7 6 1 2", "7 6 0 0", "7 6 1 1"];
    assert_eq!(rows, expected);
}

/// Variables act at once: 3 and 5 in every cycle.
#[test]
fn immediate() {
    let rows = rows_of("immediate", "\n\n\n");
    assert_eq!(rows, ["5 6 3 5", "5 6 3 5", "5 6 3 5"]);
}

#[test]
fn factorial() {
    let rows = rows_of("factorial", &format!("0 0\n1 5\n{}", "0 0\n".repeat(20)));
    let done = rows.iter().position(|row| row.ends_with("1 120"));
    assert_eq!(done, Some(19));
    assert_eq!(rows[19], "17 4 1 120");
}

#[test]
fn time_counter_keeps_its_bounds() {
    // reset_n, enabled, temporal, reinit, max.
    let rows = "0 0 0 0 0\n1 1 1 0 3\n1 1 1 0 3\n1 1 1 0 3\n1 1 1 0 3\n1 1 1 1 3\n1 0 1 0 3\n\
                1 1 1 0 3\n1 1 0 0 3\n";
    let rows = rows_of("time_counter", rows);
    let counts = columns(&rows, 2).join(" ");
    assert_eq!(counts, "0 1 2 3 3 1 0 1 0");
    let lines: Vec<&str> = rows
        .iter()
        .filter_map(|row| row.split(' ').nth(1))
        .collect();
    assert_eq!(lines.join(" "), "4 7 7 7 6 6 5 7 5");
}
