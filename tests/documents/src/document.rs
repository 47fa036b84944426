//! A document as a list of lines, and a line as text and what stands in backticks.

/// A document by its path, and its lines.
pub struct Document {
    pub path: String,
    pub lines: Vec<String>,
}

/// A piece of a line, with where it begins and ends in the line's bytes; backticks are outside.
#[derive(Debug, Clone, PartialEq, Eq)]
pub struct Piece {
    pub start: usize,
    pub end: usize,
    pub text: String,
    pub quoted: bool,
}

impl Document {
    pub fn new(path: &str, text: &str) -> Document {
        Document {
            path: path.to_string(),
            lines: text.lines().map(str::to_string).collect(),
        }
    }

    /// The lines with their numbers, from 1.
    pub fn numbered(&self) -> impl Iterator<Item = (usize, &str)> {
        self.lines
            .iter()
            .enumerate()
            .map(|(i, l)| (i + 1, l.as_str()))
    }
}

/// The words of a line's text and the spans in backticks, in order. An indented line is code: all of it is words.
pub fn pieces(line: &str) -> Vec<Piece> {
    let mut pieces = Vec::new();
    let mut start = 0;
    let is_code = line.starts_with("    ");
    for (count, part) in line.split('`').enumerate() {
        let end = start + part.len();
        if count % 2 == 1 && !is_code {
            pieces.push(Piece {
                start: start - 1,
                end: end + 1,
                text: part.to_string(),
                quoted: true,
            });
        } else {
            words(part, start, &mut pieces);
        }
        start = end + 1;
    }
    pieces
}

/// The words of a part of a line: letters, digits and what paths are made of.
fn words(part: &str, offset: usize, pieces: &mut Vec<Piece>) {
    let in_word = |c: char| c.is_alphanumeric() || "_-./*".contains(c);
    let mut from = None;
    for (at, c) in part.char_indices().chain([(part.len(), ' ')]) {
        match (from, in_word(c)) {
            (None, true) => from = Some(at),
            (Some(start), false) => {
                let whole = part[start..at].trim_end_matches(['.', '-', '*']);
                let word = whole.trim_start_matches('*');
                let start = start + whole.len() - word.len();
                if !word.is_empty() {
                    pieces.push(Piece {
                        start: offset + start,
                        end: offset + start + word.len(),
                        text: word.to_string(),
                        quoted: false,
                    });
                }
                from = None;
            }
            _ => {}
        }
    }
}

/// The cells of a row of a table; none where the line is no row or the rule below a heading.
pub fn cells(line: &str) -> Vec<&str> {
    let row = line.trim();
    if !row.starts_with('|') || !row.ends_with('|') || row.len() < 2 || row.starts_with("|---") {
        return Vec::new();
    }
    row[1..row.len() - 1].split('|').map(str::trim).collect()
}
