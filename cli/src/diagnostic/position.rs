//! Where a place of a text is: line and column as editors count them, and the line to be shown.

/// A place of a text by line and column, both counted from 1; a column is a character.
#[derive(Clone, Copy, Debug, PartialEq, Eq)]
pub struct Position {
    /// The line.
    pub line: usize,
    /// The column.
    pub column: usize,
}

/// A tab is shown as so many blanks.
const TAB: &str = "    ";

/// How much of a long line is shown before its mark, and in all.
const BEFORE: usize = 50;
const WIDEST: usize = 110;

/// The start of the line that a place is in.
fn line_start(text: &[u8], place: usize) -> usize {
    let before = text[..place].iter().rposition(|&byte| byte == b'\n');
    before.map_or(0, |end| end + 1)
}

/// The position of a place, which may be the text's end.
pub fn position(text: &[u8], place: usize) -> Position {
    let place = place.min(text.len());
    let ends = text[..place].iter().filter(|&&byte| byte == b'\n').count();
    let before = String::from_utf8_lossy(&text[line_start(text, place)..place]);
    Position {
        line: ends + 1,
        column: before.chars().count() + 1,
    }
}

/// A line as it is shown, with the part that is marked.
#[derive(Clone, Debug, PartialEq, Eq)]
pub struct Excerpt {
    /// The line, or the part of a long one around its mark.
    pub line: String,
    /// How many characters stand before the mark.
    pub before: usize,
    /// How many characters are marked: at least 1.
    pub marked: usize,
}

/// The line of a place, with `length` bytes from the place on marked.
pub fn excerpt(text: &[u8], place: usize, length: usize) -> Excerpt {
    let place = place.min(text.len());
    let start = line_start(text, place);
    let rest = &text[place..];
    let end = place
        + rest
            .iter()
            .position(|&byte| byte == b'\n')
            .unwrap_or(rest.len());
    let marked_end = (place + length).min(end);
    let before = visible(&text[start..place]);
    let marked = visible(&text[place..marked_end]);
    let behind = visible(
        text[marked_end..end]
            .strip_suffix(b"\r")
            .unwrap_or(&text[marked_end..end]),
    );
    window(before, marked, behind)
}

/// Cuts a long line to what stands around its mark.
fn window(before: Vec<char>, marked: Vec<char>, behind: Vec<char>) -> Excerpt {
    let whole = before.len() + marked.len() + behind.len() <= WIDEST;
    let cut = if whole {
        0
    } else {
        before.len().saturating_sub(BEFORE)
    };
    let mut line: Vec<char> = Vec::new();
    if cut > 0 {
        line.extend("..".chars());
    }
    line.extend(&before[cut..]);
    let offset = line.len();
    line.extend(marked.iter().chain(&behind));
    if line.len() > WIDEST {
        line.truncate(WIDEST);
        line.extend("..".chars());
    }
    let room = line.len().saturating_sub(offset).max(1);
    let marked = marked.len().clamp(1, room);
    let line = String::from_iter(line).trim_end().to_string();
    Excerpt {
        line,
        before: offset,
        marked,
    }
}

/// Characters that a terminal shows as they are: tabs as blanks, other control characters and bytes
/// that are no UTF-8 as U+FFFD.
fn visible(bytes: &[u8]) -> Vec<char> {
    let mut characters = Vec::new();
    for c in String::from_utf8_lossy(bytes).chars() {
        match c {
            '\t' => characters.extend(TAB.chars()),
            '\r' => characters.push(' '),
            c if c.is_control() => characters.push('\u{fffd}'),
            c => characters.push(c),
        }
    }
    characters
}

#[cfg(test)]
mod tests {
    use super::{excerpt, position, Excerpt, Position};

    fn at(text: &[u8], place: usize) -> (usize, usize) {
        let Position { line, column } = position(text, place);
        (line, column)
    }

    #[test]
    fn lines_and_columns() {
        let text = b"a\r\n\tb -- \xc3\xa4\n\nc";
        assert_eq!(at(text, 0), (1, 1));
        assert_eq!(at(text, 4), (2, 2));
        assert_eq!(at(text, 13), (4, 1));
        assert_eq!(at(text, 14), (4, 2));
        assert_eq!(at(text, 100), (4, 2));
        assert_eq!(at(b"", 0), (1, 1));
        assert_eq!(at(b"a\n", 2), (2, 1));
    }

    fn shown(line: &str, before: usize, marked: usize) -> Excerpt {
        Excerpt {
            line: line.to_string(),
            before,
            marked,
        }
    }

    #[test]
    fn marks() {
        assert_eq!(excerpt(b"\tab cd\r\n", 4, 2), shown("    ab cd", 7, 2));
        assert_eq!(excerpt(b"x\n", 2, 0), shown("", 0, 1));
        assert_eq!(excerpt(b"x", 1, 0), shown("x", 1, 1));
        assert_eq!(excerpt(b"a \xff b", 2, 1), shown("a \u{fffd} b", 2, 1));
        assert_eq!(excerpt(b"a \x1b[31m", 0, 1), shown("a \u{fffd}[31m", 0, 1));
    }

    #[test]
    fn long_lines() {
        let text = [b" ".repeat(10_000), b"word".to_vec(), b"y".repeat(6_000)].concat();
        let long = excerpt(&text, 10_000, 4);
        assert_eq!((long.before, long.marked), (52, 4));
        assert!(long.line.ends_with("yy..") && long.line.chars().count() <= 112);
        let all = excerpt(&text, 10_000, 6_004);
        assert_eq!(all.before + all.marked, 112);
    }
}
