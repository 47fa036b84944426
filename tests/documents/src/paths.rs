//! What the words of a document refer to: paths, modules of a crate, must-fail edits, files by their names alone.

use crate::crates::has_prefix;
use crate::document::{pieces, Piece};
use crate::project::Project;

/// Folders of the repository: a word that begins with one of them is a path.
const FOLDERS: [&str; 9] = [
    "crates", "docs", "tests", "examples", "include", "bindings", "cli", "tools", ".ci",
];

/// Endings of files: a word with one of them and no slash is the name of some file.
const ENDINGS: [&str; 8] = ["antt", "rt", "rs", "md", "h", "txt", "vhd", "edit"];

/// What a word of a document refers to.
#[derive(Debug, Clone, PartialEq, Eq)]
pub enum Target {
    Crate(String),
    /// Files or folders.
    Files(Vec<String>),
    /// An edit of a crate.
    Edit(String),
}

/// What `resolve` answers.
pub enum Resolved {
    /// The word is no reference.
    No,
    To(Target),
    Missing(String),
}

/// What a word refers to, if it is a reference.
pub fn resolve(project: &Project, word: &str) -> Resolved {
    let word = word
        .trim_start_matches("./")
        .trim_end_matches(['/', '.', ',', ';', ':', ')']);
    if let Some(module) = word.strip_prefix("Rattle.") {
        let parts: Vec<&str> = module.split('.').collect();
        return match has_prefix(parts[0]) || project.is_crate(parts[0]) {
            true => in_crate(project, parts[0], &parts[1..]),
            // Of the toolchain.
            false => Resolved::No,
        };
    }
    let parts: Vec<&str> = word.split('/').collect();
    match parts.as_slice() {
        ["crates", name, rest @ ..] if !is_pattern(name) => in_crate(project, name, rest),
        [folder, _, ..] if FOLDERS.contains(folder) => on_path(project, word),
        [name, rest @ ..] if project.is_crate(name) => in_crate(project, name, rest),
        [name, _, ..] if has_prefix(name) => Resolved::Missing(format!("there is no crate {name}")),
        [file] if has_ending(file) => named_file(project, file),
        _ => Resolved::No,
    }
}

fn has_ending(word: &str) -> bool {
    match word.rsplit_once('.') {
        Some((name, ending)) => ENDINGS.contains(&ending) && name.starts_with(char::is_alphabetic),
        None => false,
    }
}

/// `*` or a word in capitals stands for anything.
fn is_pattern(part: &str) -> bool {
    part.contains('*') || (part.len() > 1 && part.chars().all(|c| c.is_ascii_uppercase()))
}

fn on_path(project: &Project, path: &str) -> Resolved {
    if project.exists(path) {
        return Resolved::To(Target::Files(vec![path.to_string()]));
    }
    let matching = matching(project, path);
    if matching.is_empty() {
        return Resolved::Missing(format!("there is no {path}"));
    }
    Resolved::To(Target::Files(matching))
}

/// Files and folders that a path with `*` or capitals in it stands for.
fn matching(project: &Project, path: &str) -> Vec<String> {
    let parts: Vec<&str> = path.split('/').collect();
    if !parts.iter().any(|p| is_pattern(p)) {
        return Vec::new();
    }
    let fits = |file: &&String| {
        let names: Vec<&str> = file.split('/').collect();
        names.len() >= parts.len() && parts.iter().zip(&names).all(|(p, n)| part_fits(p, n))
    };
    project.files.iter().filter(fits).cloned().collect()
}

fn part_fits(pattern: &str, name: &str) -> bool {
    if !is_pattern(pattern) {
        return pattern == name;
    }
    match pattern.split_once('*') {
        Some((start, end)) => {
            name.len() >= start.len() + end.len() && name.starts_with(start) && name.ends_with(end)
        }
        None => true,
    }
}

/// A crate, a path in it, a module by its name alone, or an edit by its name alone.
fn in_crate(project: &Project, name: &str, rest: &[&str]) -> Resolved {
    if !project.is_crate(name) {
        return Resolved::Missing(format!("there is no crate {name}"));
    }
    if rest.is_empty() {
        return Resolved::To(Target::Crate(name.to_string()));
    }
    let path = format!("crates/{name}/{}", rest.join("/"));
    if rest.iter().any(|part| is_pattern(part)) {
        return on_path(project, &path);
    }
    let mut files = vec![path.clone(), format!("{path}.antt")];
    if let [module] = rest {
        files.push(format!("crates/{name}/specs/{module}.antt"));
        files.push(format!("crates/{name}/proofs/{module}.antt"));
    }
    files.retain(|f| project.exists(f));
    if !files.is_empty() {
        return Resolved::To(Target::Files(files));
    }
    let label = rest[rest.len() - 1];
    let is_edit = rest.len() == 1 || rest[0] == "must-fail";
    if is_edit
        && project
            .edits
            .get(name)
            .is_some_and(|edits| edits.contains(label))
    {
        return Resolved::To(Target::Edit(name.to_string()));
    }
    Resolved::Missing(format!(
        "{name} has no module, edit or file {}",
        rest.join("/")
    ))
}

/// A file by its name alone: some folder has it.
fn named_file(project: &Project, name: &str) -> Resolved {
    let end = format!("/{name}");
    let files: Vec<String> = project
        .files
        .iter()
        .filter(|f| f.as_str() == name || f.ends_with(&end))
        .cloned()
        .collect();
    if files.is_empty() {
        return Resolved::Missing(format!("there is no file {name}"));
    }
    Resolved::To(Target::Files(files))
}

pub fn target_of(project: &Project, piece: &Piece) -> Option<Target> {
    match resolve(project, &piece.text) {
        // `trace` and `run` are words as well; an edit has no names.
        Resolved::To(Target::Crate(name)) if !has_prefix(&name) => None,
        Resolved::To(Target::Edit(_)) => None,
        Resolved::To(target) => Some(target),
        _ => None,
    }
}

/// Modules that are listed behind their folder: "crate/specs A, B, C", "crate/specs (A, B)", "crate/specs: A".
pub fn modules(project: &Project, line: &str) -> Vec<String> {
    let mut says = Vec::new();
    for (folder, names) in folders(project, line) {
        for name in names {
            if !project.exists(&format!("{folder}/{name}.antt")) {
                says.push(format!("{folder} has no module {name}"));
            }
        }
    }
    says
}

/// Folders of specs or proofs that a line names, each with the modules listed behind it.
fn folders(project: &Project, line: &str) -> Vec<(String, Vec<String>)> {
    let mut folders = Vec::new();
    for piece in pieces(line) {
        let Some(Target::Files(files)) = target_of(project, &piece) else {
            continue;
        };
        let [path] = files.as_slice() else { continue };
        if path.ends_with("/specs") || path.ends_with("/proofs") {
            folders.push((path.clone(), listed(&line[piece.end..])));
        }
    }
    folders
}

/// Capitalised words with commas between them, at the beginning of a text.
fn listed(text: &str) -> Vec<String> {
    let mut names = Vec::new();
    let start = [" (", ": ", " "]
        .iter()
        .find_map(|mark| text.strip_prefix(mark));
    let mut rest = start.unwrap_or("");
    while rest.starts_with(char::is_uppercase) {
        let end = rest
            .find(|c: char| !c.is_alphanumeric())
            .unwrap_or(rest.len());
        names.push(rest[..end].to_string());
        match rest[end..].strip_prefix(", ") {
            Some(next) => rest = next,
            None => break,
        }
    }
    names
}

/// The files that a cell of a table stands for: those it names, the modules listed behind a folder, or all of the folder.
pub fn files_in(project: &Project, cell: &str) -> Vec<String> {
    let mut files = Vec::new();
    for piece in pieces(cell) {
        let Some(Target::Files(paths)) = target_of(project, &piece) else {
            continue;
        };
        let names = listed(&cell[piece.end..]);
        for path in paths {
            if project.files.contains(&path) {
                files.push(path);
            } else if names.is_empty() {
                let inside = format!("{path}/");
                files.extend(
                    project
                        .files
                        .iter()
                        .filter(|f| f.starts_with(&inside))
                        .cloned(),
                );
            } else {
                files.extend(names.iter().map(|name| format!("{path}/{name}.antt")));
            }
        }
    }
    files
}
