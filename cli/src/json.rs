//! JSON, as much of it as is written.

use std::fmt::Write;

/// A value.
pub enum Json {
    /// `true` or `false`.
    Truth(bool),
    /// A number.
    Number(u64),
    /// Words.
    Words(String),
    /// A list.
    List(Vec<Json>),
    /// Named values in their order.
    Object(Vec<(&'static str, Json)>),
}

impl Json {
    /// The value in one line.
    pub fn line(&self) -> String {
        let mut line = String::new();
        self.put(&mut line);
        line
    }

    fn put(&self, line: &mut String) {
        match self {
            Json::Truth(truth) => line.push_str(if *truth { "true" } else { "false" }),
            Json::Number(number) => line.push_str(&number.to_string()),
            Json::Words(words) => put_words(line, words),
            Json::List(list) => {
                let put = |line: &mut String, value: &Json| value.put(line);
                put_all(line, ['[', ']'], list, put);
            }
            Json::Object(fields) => put_all(line, ['{', '}'], fields, |line, (name, value)| {
                put_words(line, name);
                line.push(':');
                value.put(line);
            }),
        }
    }
}

fn put_all<T>(
    line: &mut String,
    [open, close]: [char; 2],
    all: &[T],
    put: impl Fn(&mut String, &T),
) {
    line.push(open);
    for (index, element) in all.iter().enumerate() {
        if index > 0 {
            line.push(',');
        }
        put(line, element);
    }
    line.push(close);
}

fn put_words(line: &mut String, words: &str) {
    line.push('"');
    for c in words.chars() {
        match c {
            '"' => line.push_str("\\\""),
            '\\' => line.push_str("\\\\"),
            '\n' => line.push_str("\\n"),
            '\t' => line.push_str("\\t"),
            '\r' => line.push_str("\\r"),
            c if c < ' ' || c == '\u{7f}' => {
                let _ = write!(line, "\\u{:04x}", u32::from(c));
            }
            c => line.push(c),
        }
    }
    line.push('"');
}

#[cfg(test)]
mod tests {
    use super::Json;

    #[test]
    fn escaped() {
        let words = Json::Words("a\"b\\c\n\t\r\u{1}ä".to_string());
        assert_eq!(words.line(), "\"a\\\"b\\\\c\\n\\t\\r\\u0001ä\"");
        let list = Json::List(vec![Json::Number(1), Json::Truth(true), Json::List(vec![])]);
        let object = Json::Object(vec![("x", list), ("y", Json::Truth(false))]);
        assert_eq!(object.line(), "{\"x\":[1,true,[]],\"y\":false}");
    }
}
