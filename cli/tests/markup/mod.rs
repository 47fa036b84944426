//! A small reader of HTML for the tests of pages: it takes only what is nested well and quoted.

use std::collections::BTreeMap;

/// Elements without content and end.
const VOID: [&str; 3] = ["meta", "br", "hr"];

/// Elements of SVG that may end themselves.
const SHAPES: [&str; 2] = ["path", "rect"];

/// A tag that opens an element, with the elements that it stands in, or words between tags.
#[derive(Clone, Debug, PartialEq)]
pub enum Piece {
    Open {
        name: String,
        attributes: BTreeMap<String, String>,
        within: Vec<String>,
    },
    Words(String),
    Close(String),
}

/// All pieces of a page, or what is wrong with it.
pub fn read(page: &str) -> Result<Vec<Piece>, String> {
    let mut rest = page
        .strip_prefix("<!DOCTYPE html>\n")
        .ok_or("no document type")?;
    let mut open: Vec<String> = Vec::new();
    let mut pieces = Vec::new();
    while !rest.is_empty() {
        let start = rest.find('<').unwrap_or(rest.len());
        let (words, tag) = rest.split_at(start);
        sound(words)?;
        pieces.push(Piece::Words(words.to_string()));
        if tag.is_empty() {
            break;
        }
        let end = tag.find('>').ok_or("a tag without end")?;
        pieces.extend(one(&tag[1..end], &mut open)?);
        rest = &tag[end + 1..];
    }
    match open.is_empty() {
        true => Ok(pieces),
        false => Err(format!("not closed: {open:?}")),
    }
}

/// A tag, on the elements that are open.
fn one(tag: &str, open: &mut Vec<String>) -> Result<Option<Piece>, String> {
    if let Some(name) = tag.strip_prefix('/') {
        return match open.pop() {
            Some(last) if last == name => Ok(Some(Piece::Close(last))),
            last => Err(format!("{name} closes {last:?}")),
        };
    }
    let itself = tag.ends_with('/');
    let (name, attributes) = attributes(tag.trim_end_matches('/'))?;
    let piece = Piece::Open {
        name: name.clone(),
        attributes,
        within: open.clone(),
    };
    if itself && !SHAPES.contains(&name.as_str()) {
        return Err(format!("{name} ends itself"));
    }
    if !itself && !VOID.contains(&name.as_str()) {
        open.push(name);
    }
    Ok(Some(piece))
}

fn attributes(tag: &str) -> Result<(String, BTreeMap<String, String>), String> {
    let (name, mut rest) = tag.split_once(' ').unwrap_or((tag, ""));
    let mut all = BTreeMap::new();
    while !rest.trim().is_empty() {
        let (key, value) = rest
            .trim_start()
            .split_once("=\"")
            .ok_or(format!("not quoted: {tag}"))?;
        let (value, behind) = value.split_once('"').ok_or(format!("not quoted: {tag}"))?;
        sound(value)?;
        if all.insert(key.to_string(), value.to_string()).is_some() {
            return Err(format!("{key} twice: {tag}"));
        }
        rest = behind;
    }
    Ok((name.to_string(), all))
}

/// Words have no control characters, and `&` only where it begins a known reference.
fn sound(words: &str) -> Result<(), String> {
    if let Some(bad) = words
        .chars()
        .find(|c| c.is_control() && !"\n\t".contains(*c))
    {
        return Err(format!("a control character: {bad:?}"));
    }
    let known = ["&amp;", "&lt;", "&gt;", "&quot;", "&#39;"];
    let good = |at: usize| {
        known
            .iter()
            .any(|reference| words[at..].starts_with(reference))
    };
    match words.match_indices('&').find(|(at, _)| !good(*at)) {
        Some((at, _)) => Err(format!("a bare &: {}", &words[at..])),
        None => Ok(()),
    }
}

/// The words of a page without its tags, references resolved.
pub fn words(pieces: &[Piece]) -> String {
    let mut all = String::new();
    for piece in pieces {
        if let Piece::Words(words) = piece {
            all.push_str(words);
        }
    }
    plain(&all)
}

pub fn plain(words: &str) -> String {
    let words = words.replace("&lt;", "<").replace("&gt;", ">");
    let words = words.replace("&quot;", "\"").replace("&#39;", "'");
    words.replace("&amp;", "&")
}
