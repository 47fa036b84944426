//! Names in a document: each must exist. A name in backticks; a name that stands beside the module or crate that has it; an edit; a crate.

use crate::crates::{has_prefix, is_prefix};
use crate::document::{pieces, Document, Piece};
use crate::links::links;
use crate::paths::{modules, resolve, target_of, Resolved, Target};
use crate::project::{is_word, Project};
use crate::Finding;

/// Words in backticks that are no names of code here, each with the reason.
const NOT_NAMES: [(&str, &str); 7] = [
    ("variable_declaration", "a production of document 000"),
    ("s__x", "an example of a malformed word"),
    ("document_1", "a case in the stored output of test_vectors"),
    ("clk'event", "of VHDL, and not of this language"),
    ("nand", "of VHDL, and not of this language"),
    ("natural", "of VHDL, and not of this language"),
    ("rising_edge", "of VHDL, and not of this language"),
];

pub fn check(project: &Project, document: &Document) -> Vec<Finding> {
    let mut found = Vec::new();
    for (number, line) in document.numbered() {
        if line.starts_with("<!--") {
            continue;
        }
        let mut says = references(project, line);
        says.extend(chains(project, line));
        says.extend(modules(project, line));
        says.extend(links(project, document, line));
        found.extend(
            says.into_iter()
                .map(|s| Finding::new(&document.path, number, s)),
        );
    }
    found
}

/// Paths, modules, edits and names, each by itself.
fn references(project: &Project, line: &str) -> Vec<String> {
    let mut says = Vec::new();
    let named = crates_named(project, line);
    for piece in pieces(line) {
        if piece.quoted {
            says.extend(quoted(project, &piece.text));
        } else {
            match resolve(project, &piece.text) {
                Resolved::Missing(what) => says.push(what),
                Resolved::To(_) => {}
                Resolved::No => says.extend(unquoted(project, &piece.text, &named)),
            }
        }
    }
    says
}

/// What stands in backticks: paths in it, and names.
fn quoted(project: &Project, content: &str) -> Vec<String> {
    let mut says = Vec::new();
    for word in content.split_whitespace() {
        if let Resolved::Missing(what) = resolve(project, word) {
            says.push(what);
        }
    }
    if content.contains('/') && content.len() > 1 {
        return says;
    }
    if let Some(path) = code_path(content) {
        says.extend(path_in_code(project, &path, None));
    } else {
        let unknown = |n: &&String| !is_known(project, n);
        let names = names_in(content);
        says.extend(names.iter().filter(unknown).map(|n| nowhere(n)));
    }
    says
}

fn nowhere(name: &str) -> String {
    format!("`{name}` is no name in crates/, include/, bindings/, cli/ or tests/")
}

fn is_known(project: &Project, name: &str) -> bool {
    let is_edit = || project.edits.values().any(|edits| edits.contains(name));
    is_prefix(name)
        || project.is_crate(name)
        || project.has_word(name)
        || NOT_NAMES.iter().any(|(word, _)| *word == name)
        || is_edit()
}

/// A word outside backticks with an underscore in it: a crate, an edit of a crate that the line names, or a name of code.
fn unquoted(project: &Project, word: &str, named: &[String]) -> Option<String> {
    let is_label = word.contains('_') && word.chars().all(|c| c.is_alphanumeric() || c == '_');
    if !is_label || is_prefix(word) || project.is_crate(word) || project.has_word(word) {
        return None;
    }
    let has_edit = |c: &String| {
        let edits = project.edits.get(c);
        edits.is_some_and(|edits| edits.contains(word))
    };
    if named.is_empty() && is_known(project, word) || named.iter().any(has_edit) {
        return None;
    }
    Some(match has_prefix(word) {
        true => format!("there is no crate {word}"),
        false => format!("{word} is no edit of a crate that this line names"),
    })
}

/// The crates that a line names, alone or in a path.
fn crates_named(project: &Project, line: &str) -> Vec<String> {
    let mut named = Vec::new();
    for piece in pieces(line) {
        for word in piece.text.split(['/', ':', ' ']) {
            if project.is_crate(word) && has_prefix(word) {
                named.push(word.to_string());
            }
        }
    }
    named
}

/// The parts of `module::function`; none for anything else.
fn code_path(content: &str) -> Option<Vec<String>> {
    let parts: Vec<String> = content.split("::").map(str::to_string).collect();
    let is_name = |part: &String| {
        !part.is_empty()
            && part
                .chars()
                .all(|c| c.is_alphanumeric() || c == '_' || c == '*')
    };
    (parts.len() > 1 && parts.iter().all(is_name)).then_some(parts)
}

/// Whether a path in code leads to a name: a crate first, or a module of the owner, or of any crate, or a type that stands in one source file with what it has.
fn path_in_code(project: &Project, path: &[String], owner: Option<&str>) -> Option<String> {
    let written = path.join("::");
    let (first, rest) = (&path[0], &path[1..]);
    if project.is_crate(first) || has_prefix(first) {
        let source = format!("crates/{first}/src");
        let missing = rest.iter().find(|part| !project.has_word_in(&source, part));
        return missing.map(|part| format!("`{written}`: {first} has no {part}"));
    }
    let last = &rest[rest.len() - 1];
    let end = format!("/src/{first}.rt");
    let is_type = first.starts_with(char::is_uppercase);
    let inside = owner.map(|name| format!("crates/{name}/"));
    let has_it = |file: &&String| {
        inside
            .as_ref()
            .is_none_or(|folder| file.starts_with(folder))
            && (file.ends_with(&end)
                || is_type && file.ends_with(".rt") && has_block(project, file, first))
            && project.has_word_in(file, last)
    };
    let found = project.files.iter().find(has_it);
    match (found, owner) {
        (Some(_), _) => None,
        (None, Some(owner)) => Some(format!("{owner} has no `{written}`")),
        (None, None) => Some(format!(
            "`{written}`: no crate has a module {first} with {last}"
        )),
    }
}

/// Whether a source file has a block of a type or a trait by this name: `struct`, `enum`, `trait` or `impl`.
fn has_block(project: &Project, file: &str, name: &str) -> bool {
    let begins = |line: &str| {
        let words: Vec<&str> = line
            .split(|c: char| !is_word(c))
            .filter(|w| !w.is_empty())
            .collect();
        let opens = words
            .iter()
            .position(|w| ["struct", "enum", "trait", "impl"].contains(w));
        opens.is_some_and(|i| words[i + 1..].contains(&name))
    };
    project.text(file).is_ok_and(|text| {
        text.lines()
            .any(|line| !line.starts_with("//") && begins(line))
    })
}

/// The names in what stands in backticks: the whole, if it is one word; else those of its words that can only be names.
fn names_in(content: &str) -> Vec<String> {
    let plain = content.trim_start_matches('.').replace(['«', '»'], "");
    let begins = plain.starts_with(|c: char| c.is_alphabetic() || c == '_');
    if begins && plain.chars().count() > 1 && plain.chars().all(|c| is_word(c) || c == '*') {
        return vec![plain];
    }
    plain
        .split(|c: char| !is_word(c))
        .filter(|word| looks_like_name(word))
        .map(str::to_string)
        .collect()
}

/// Words with an underscore, a hyphen or a capital inside them.
fn looks_like_name(word: &str) -> bool {
    let chars: Vec<char> = word.chars().collect();
    let joined = |w: &[char]| {
        w[0].is_alphanumeric() && w[2].is_alphanumeric() && (w[1] == '_' || w[1] == '-')
    };
    let turns = |w: &[char]| w[0].is_lowercase() && w[1].is_uppercase();
    word.starts_with(char::is_alphabetic)
        && (chars.windows(3).any(joined) || chars.windows(2).any(turns))
}

/// Names beside the module or crate that has them: "crate/Module `name`, `name`", "crate `name`", "`name`, `name` (crate/Module)", "`name` of crate".
fn chains(project: &Project, line: &str) -> Vec<String> {
    let mut says = Vec::new();
    let items: Vec<(Piece, Option<Target>)> = pieces(line)
        .into_iter()
        .map(|piece| {
            let target = target_of(project, &piece);
            (piece, target)
        })
        .filter(|(piece, target)| piece.quoted || target.is_some())
        .collect();
    let mut owned = vec![false; items.len()];
    for i in 0..items.len() {
        let Some(target) = &items[i].1 else { continue };
        for j in i + 1..items.len() {
            let gap = &line[items[j - 1].0.end..items[j].0.start];
            let joins = if j == i + 1 {
                gap == " " || gap == ") "
            } else {
                is_comma(gap)
            };
            if !joins || items[j].1.is_some() {
                break;
            }
            owned[j] = true;
            says.extend(missing_in(project, target, &items[j].0.text));
        }
        for j in (0..i).rev() {
            let gap = &line[items[j].0.end..items[j + 1].0.start];
            let joins = if j + 1 == i {
                gap == " (" || gap == " of "
            } else {
                is_comma(gap)
            };
            if !joins || items[j].1.is_some() || owned[j] {
                break;
            }
            says.extend(missing_in(project, target, &items[j].0.text));
        }
    }
    says
}

fn is_comma(gap: &str) -> bool {
    [", ", " and ", ", and "].contains(&gap)
}

/// Names that a module or crate is said to have, and has not.
fn missing_in(project: &Project, target: &Target, content: &str) -> Vec<String> {
    let (places, what) = match target {
        Target::Crate(name) => (vec![format!("crates/{name}")], name.clone()),
        Target::Files(files) => (files.clone(), files.join(" or ")),
        Target::Edit(_) => return Vec::new(),
    };
    let is_code = |f: &String| f.starts_with("crates/") || f.starts_with("include/");
    if !places.iter().all(is_code) || content.contains('/') {
        return Vec::new();
    }
    if let (Some(path), Target::Crate(name)) = (code_path(content), target) {
        return path_in_code(project, &path, Some(name))
            .into_iter()
            .collect();
    }
    let has = |name: &String| places.iter().any(|place| project.has_word_in(place, name));
    names_in(content)
        .iter()
        .filter(|name| !has(name))
        .map(|name| format!("{what} has no `{name}`"))
        .collect()
}
