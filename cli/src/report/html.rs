//! Pieces of HTML. Whatever comes from files goes through `escaped` or `shown`.

/// A text as HTML. Control characters, which HTML does not allow, become U+FFFD.
pub fn escaped(text: &str) -> String {
    let mut all = String::with_capacity(text.len());
    for character in text.chars() {
        match character {
            '&' => all.push_str("&amp;"),
            '<' => all.push_str("&lt;"),
            '>' => all.push_str("&gt;"),
            '"' => all.push_str("&quot;"),
            '\'' => all.push_str("&#39;"),
            '\r' => all.push(' '),
            '\t' | '\n' => all.push(character),
            _ if character.is_control() => all.push('\u{FFFD}'),
            _ => all.push(character),
        }
    }
    all
}

/// Bytes of a file as HTML; what is no UTF-8 becomes U+FFFD.
pub fn shown(bytes: &[u8]) -> String {
    escaped(&String::from_utf8_lossy(bytes))
}

/// A part of the page with its heading.
pub fn section(id: &str, heading: &str, body: &str) -> String {
    format!("<section id=\"{id}\">\n<h2>{heading}</h2>\n{body}</section>\n")
}

/// A table with a caption and a heading for each column; rows come whole.
pub fn table(class: &str, caption: &str, headings: &[String], rows: &[String]) -> String {
    let headings: String = headings
        .iter()
        .map(|heading| format!("<th scope=\"col\">{heading}</th>"))
        .collect();
    format!(
        "<div class=\"scroll\" tabindex=\"0\" role=\"region\" aria-label=\"{caption}\">\
         <table class=\"{class}\">\n<caption>{caption}</caption>\n\
         <thead><tr>{headings}</tr></thead>\n<tbody>\n{}</tbody>\n</table></div>\n",
        rows.concat()
    )
}

/// A row whose first cell is its heading.
pub fn row(class: &str, heading: &str, cells: &[String]) -> String {
    let cells: String = cells
        .iter()
        .map(|cell| format!("<td>{cell}</td>"))
        .collect();
    let class = match class {
        "" => String::new(),
        _ => format!(" class=\"{class}\""),
    };
    format!("<tr{class}><th scope=\"row\">{heading}</th>{cells}</tr>\n")
}

/// A number with its noun: `1 beat`, `2,000 beats`.
pub fn counted(count: usize, noun: &str) -> String {
    let ending = if count == 1 { "" } else { "s" };
    format!("{} {noun}{ending}", grouped(count))
}

/// A number with commas between its thousands.
pub fn grouped(count: usize) -> String {
    let digits = count.to_string();
    let mut all = String::new();
    for (index, digit) in digits.chars().enumerate() {
        if index > 0 && (digits.len() - index) % 3 == 0 {
            all.push(',');
        }
        all.push(digit);
    }
    all
}

/// A sentence in which what stands between backticks is code.
pub fn coded(words: &str) -> String {
    let parts = words.split('`').enumerate();
    let parts = parts.map(|(index, part)| match index % 2 {
        0 => shown(part.as_bytes()),
        _ => format!("<code>{}</code>", shown(part.as_bytes())),
    });
    parts.collect()
}
