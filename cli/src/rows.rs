//! Rows of inputs: lines of decimals, read one by one however long the file is.

use std::io::{BufRead, Result};

/// How many values of a row are kept: one more than any process has data inputs, so that a row with
/// more values than those is refused for it.
const KEPT: usize = 17;

/// One row as it was read.
#[derive(Clone, Debug, Default, PartialEq, Eq)]
pub struct Row {
    values: [i32; KEPT],
    count: usize,
    readable: bool,
}

impl Row {
    /// The values, the first of them where there are many; none if the row cannot be read.
    pub fn values(&self) -> Option<&[i32]> {
        self.values.get(..self.count).filter(|_| self.readable)
    }
}

/// What stands before the next byte of a line.
#[derive(Clone, Copy)]
enum Before {
    Nothing,
    Sign,
    Digit,
    Space,
    /// Something that no row has.
    Fault,
}

/// A row that is being read. Nothing but its first values is kept, so that a line may have any
/// length; digits may be any number too.
struct Reader {
    row: Row,
    before: Before,
    negative: bool,
    /// The number that is being read, as far as it matters: past `u32` it is outside integer.
    magnitude: u64,
}

impl Reader {
    fn new() -> Reader {
        let row = Row {
            readable: true,
            ..Row::default()
        };
        Reader {
            row,
            before: Before::Nothing,
            negative: false,
            magnitude: 0,
        }
    }

    fn byte(&mut self, byte: u8) {
        self.before = match (self.before, byte) {
            (Before::Nothing | Before::Space, b'-') => {
                self.negative = true;
                Before::Sign
            }
            (Before::Nothing | Before::Space | Before::Sign | Before::Digit, b'0'..=b'9') => {
                let digit = u64::from(byte - b'0');
                self.magnitude = (10 * self.magnitude + digit).min(u64::from(u32::MAX));
                Before::Digit
            }
            (Before::Digit, b' ') => {
                self.number();
                Before::Space
            }
            _ => Before::Fault,
        }
    }

    /// A number has ended.
    fn number(&mut self) {
        let magnitude = self.magnitude as i64;
        let value = if self.negative { -magnitude } else { magnitude };
        match i32::try_from(value) {
            Ok(value) => {
                if let Some(slot) = self.row.values.get_mut(self.row.count) {
                    *slot = value;
                    self.row.count += 1;
                }
            }
            Err(_) => self.row.readable = false,
        }
        (self.negative, self.magnitude) = (false, 0);
    }

    /// The line has ended.
    fn end(mut self) -> Row {
        match self.before {
            Before::Nothing => (),
            Before::Digit => self.number(),
            Before::Sign | Before::Space | Before::Fault => self.row.readable = false,
        }
        self.row
    }
}

/// The lines of a file of rows that is at hand, as they are shown.
pub fn split(rows: &[u8]) -> impl Iterator<Item = &[u8]> {
    let lines = rows.split_inclusive(|&byte| byte == b'\n');
    lines.map(|line| line.strip_suffix(b"\n").unwrap_or(line))
}

/// The next row: up to an LF, or to the file's end if bytes stand before it; and how many bytes of
/// the file it took.
pub fn next(source: &mut dyn BufRead) -> Result<Option<(Row, u64)>> {
    let mut reader = Reader::new();
    let mut taken = 0;
    loop {
        let part = source.fill_buf()?;
        if part.is_empty() {
            return Ok((taken > 0).then(|| (reader.end(), taken)));
        }
        let end = part.iter().position(|&byte| byte == b'\n');
        let line = &part[..end.unwrap_or(part.len())];
        line.iter().for_each(|&byte| reader.byte(byte));
        let length = line.len() + usize::from(end.is_some());
        source.consume(length);
        taken += length as u64;
        if end.is_some() {
            return Ok(Some((reader.end(), taken)));
        }
    }
}

#[cfg(test)]
mod tests {
    use super::{next, split, Row};
    use std::io::BufReader;

    /// All rows of a file, read through a buffer so small that rows pass its ends.
    fn rows(bytes: &[u8]) -> Vec<Row> {
        let mut source = BufReader::with_capacity(3, bytes);
        let mut rows = Vec::new();
        while let Some((row, _)) = next(&mut source).unwrap() {
            rows.push(row);
        }
        rows
    }

    fn only(line: &str) -> Option<Vec<i32>> {
        let all = rows(line.as_bytes());
        assert_eq!(all.len(), 1, "{line:?}");
        all[0].values().map(<[i32]>::to_vec)
    }

    #[test]
    fn numbers() {
        assert_eq!(only("7\n"), Some(vec![7]));
        assert_eq!(only("-5 007 -0"), Some(vec![-5, 7, 0]));
        assert_eq!(
            only("-2147483648 2147483647\n"),
            Some(vec![i32::MIN, i32::MAX])
        );
        assert_eq!(only(&format!("{}1", "0".repeat(1000))), Some(vec![1]));
        assert_eq!(only("\n"), Some(vec![]));
        assert_eq!(only(&["1"; 16].join(" ")), Some(vec![1; 16]));
        assert_eq!(only(&["1"; 17].join(" ")), Some(vec![1; 17]));
        assert_eq!(only(&["1"; 1000].join(" ")), Some(vec![1; 17]));
    }

    #[test]
    fn unreadable() {
        let lines = [
            " 7",
            "7 ",
            "1  2",
            "1\t2",
            "+1",
            "-",
            "--1",
            "-+7",
            "1-",
            "7\r",
            "\t7",
            "x",
            "7.0",
            "1 -",
            "\u{660}",
            "2147483648",
            "-2147483649",
            "99999999999 -99999999999999999999",
        ];
        for line in lines {
            assert_eq!(only(&format!("{line}\n")), None, "{line:?}");
        }
        assert_eq!(only(&"9".repeat(100_000)), None);
        assert_eq!(only(&format!("{} 2147483648", ["1"; 20].join(" "))), None);
    }

    #[test]
    fn ends() {
        for (bytes, lines) in [("", 0), ("\n\n", 2), ("1\n2", 2), ("1\n2\n", 2)] {
            assert_eq!(rows(bytes.as_bytes()).len(), lines);
            assert_eq!(split(bytes.as_bytes()).count(), lines);
        }
    }
}
