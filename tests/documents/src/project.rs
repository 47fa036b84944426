//! The repository as it stands: its files, crates.txt, the header comment of each crate, and the words of its code.

use crate::document::Document;
use std::collections::{BTreeMap, BTreeSet, HashMap, HashSet};
use std::fs;
use std::io;
use std::path::{Path, PathBuf};

/// The documents that speak in the names of their day.
const HISTORY: [&str; 3] = ["docs/LANDINGS.md", "docs/PORT.md", "docs/DESIGN-PASS.md"];

/// A line of crates.txt, with the header comment of the crate's first source file.
pub struct Crate {
    pub name: String,
    /// Crates of this repository that it names.
    pub depends: Vec<String>,
    /// Libraries of the toolchain that it names.
    pub libraries: Vec<String>,
    /// The first sentence of its header comment; empty where there is none.
    pub header: String,
}

pub struct Project {
    pub root: PathBuf,
    /// In the order of crates.txt.
    pub crates: Vec<Crate>,
    /// Every file, by its path from the root; folders that hold builds, and what rt keeps of a crate, are left out.
    pub files: BTreeSet<String>,
    /// The words of each source file, comments left out.
    words: HashMap<String, HashSet<String>>,
    /// The words of all of them.
    all_words: HashSet<String>,
    /// The edits in must-fail/ of each crate.
    pub edits: BTreeMap<String, BTreeSet<String>>,
}

impl Project {
    pub fn read(root: &Path) -> io::Result<Project> {
        let root = root.canonicalize()?;
        let mut files = BTreeSet::new();
        list(&root, "", &mut files)?;
        let mut words = HashMap::new();
        for file in files.iter().filter(|f| is_source(f)) {
            let text = fs::read_to_string(root.join(file))?;
            words.insert(file.clone(), words_of(file, &text));
        }
        let all_words = words.values().flatten().cloned().collect();
        let mut edits: BTreeMap<String, BTreeSet<String>> = BTreeMap::new();
        for file in &files {
            if let ["crates", owner, "must-fail", edit] =
                file.split('/').collect::<Vec<_>>().as_slice()
            {
                let label = edit.trim_end_matches(".edit").to_string();
                edits.entry(owner.to_string()).or_default().insert(label);
            }
        }
        let crates = listed(&root)?;
        Ok(Project {
            root,
            crates,
            files,
            words,
            all_words,
            edits,
        })
    }

    pub fn text(&self, path: &str) -> io::Result<String> {
        fs::read_to_string(self.root.join(path))
    }

    pub fn is_crate(&self, name: &str) -> bool {
        self.crates.iter().any(|c| c.name == name)
    }

    /// A file or a folder.
    pub fn exists(&self, path: &str) -> bool {
        self.root.join(path).exists()
    }

    /// Whether a word stands in some code.
    pub fn has_word(&self, word: &str) -> bool {
        match word.strip_suffix('*') {
            Some(start) => self.all_words.iter().any(|w| w.starts_with(start)),
            None => self.all_words.contains(word),
        }
    }

    /// Whether a word stands in the code of a file, or of a file below a folder.
    pub fn has_word_in(&self, path: &str, word: &str) -> bool {
        let inside = format!("{path}/");
        let start = word.strip_suffix('*');
        self.words
            .iter()
            .filter(|(file, _)| file.as_str() == path || file.starts_with(&inside))
            .any(|(_, words)| match start {
                Some(start) => words.iter().any(|w| w.starts_with(start)),
                None => words.contains(word),
            })
    }

    /// README.md, what stands in docs/, but for the history (landings, the port, the design pass) and the sources, and tests/README.md.
    pub fn documents(&self) -> Vec<Document> {
        let is_document = |f: &&String| {
            ["README.md", "tests/README.md"].contains(&f.as_str())
                || (f.starts_with("docs/") && f.ends_with(".md"))
        };
        let is_source = |f: &str| f.starts_with("docs/source/");
        self.files
            .iter()
            .filter(is_document)
            .filter(|f| !HISTORY.contains(&f.as_str()) && !is_source(f))
            .map(|f| Document::new(f, &self.text(f).unwrap_or_default()))
            .collect()
    }
}

/// Lists the files below a folder.
fn list(root: &Path, folder: &str, files: &mut BTreeSet<String>) -> io::Result<()> {
    for entry in fs::read_dir(root.join(folder))? {
        let entry = entry?;
        let name = entry.file_name().to_string_lossy().into_owned();
        let path = match folder {
            "" => name.clone(),
            _ => format!("{folder}/{name}"),
        };
        if entry.file_type()?.is_dir() {
            if name != "target" && name != ".git" && !is_kept_by_rt(&path) {
                list(root, &path, files)?;
            }
        } else {
            files.insert(path);
        }
    }
    Ok(())
}

/// Whether a folder is crates/NAME/out.
fn is_kept_by_rt(path: &str) -> bool {
    matches!(
        path.split('/').collect::<Vec<_>>().as_slice(),
        ["crates", _, "out"]
    )
}

/// Files whose words count as names: code and definitions. The words of this program and of test data do not.
fn is_source(path: &str) -> bool {
    let folders = ["crates/", "include/", "bindings/", "cli/", "tests/", ".ci/"];
    let inside = folders.iter().any(|folder| path.starts_with(folder));
    let ends = ["rt", "antt", "rs", "c", "h", "run"]
        .iter()
        .any(|end| path.rsplit(['.', '/']).next() == Some(end));
    inside && ends && !path.contains("/data/") && !path.starts_with("tests/documents/")
}

/// The words of a source file. A hyphen is part of a name in .antt files; elsewhere its parts are words too.
fn words_of(path: &str, text: &str) -> HashSet<String> {
    let comment = if path.ends_with(".antt") { "--" } else { "//" };
    let mut words = HashSet::new();
    for line in text.lines() {
        let code = without_comment(line, comment);
        for word in code.split(|c: char| !is_word(c)) {
            let word = word.trim_matches('-').trim_start_matches('\'');
            if word.is_empty() {
                continue;
            }
            words.insert(word.to_string());
            if comment == "//" {
                words.extend(word.split('-').map(str::to_string));
            }
        }
    }
    words
}

pub fn is_word(c: char) -> bool {
    c.is_alphanumeric() || c == '_' || c == '-' || c == '\''
}

/// A line without its comment, which begins at the line's start or behind a blank.
pub fn without_comment<'a>(line: &'a str, mark: &str) -> &'a str {
    let begins = |at: &usize| *at == 0 || line[..*at].ends_with(char::is_whitespace);
    match line.match_indices(mark).map(|(at, _)| at).find(begins) {
        Some(at) => &line[..at],
        None => line,
    }
}

/// The lines of crates.txt: "NAME: NAME ..", with a kind such as `staticlib` behind the first name where it is one.
fn listed(root: &Path) -> io::Result<Vec<Crate>> {
    let text = fs::read_to_string(root.join("crates.txt"))?;
    let lines: Vec<(&str, Vec<&str>)> = text
        .lines()
        .filter(|line| !line.starts_with('#'))
        .filter_map(|line| line.split_once(':'))
        .filter_map(|(head, named)| Some((head.split_whitespace().next()?, named)))
        .map(|(name, named)| (name, named.split_whitespace().collect()))
        .collect();
    let names: HashSet<&str> = lines.iter().map(|(name, _)| *name).collect();
    let mut crates = Vec::new();
    for (name, named) in &lines {
        let (depends, libraries): (Vec<&str>, Vec<&str>) =
            named.iter().partition(|d| names.contains(**d));
        crates.push(Crate {
            name: name.to_string(),
            depends: depends.into_iter().map(str::to_string).collect(),
            libraries: libraries.into_iter().map(str::to_string).collect(),
            header: header(root, name),
        });
    }
    Ok(crates)
}

/// The first sentence of the header comment of a crate's lib.rt or main.rt. Attributes such as `#![tactic(auto)]` stand before it.
fn header(root: &Path, name: &str) -> String {
    let source = ["lib.rt", "main.rt"]
        .iter()
        .find_map(|file| {
            fs::read_to_string(root.join("crates").join(name).join("src").join(file)).ok()
        })
        .unwrap_or_default();
    let comment: Vec<&str> = source
        .lines()
        .skip_while(|line| line.starts_with("#![") || line.trim().is_empty())
        .map_while(|line| line.strip_prefix("//"))
        .map(str::trim)
        .collect();
    first_sentence(&comment.join(" "))
}

/// A text up to its first full stop that ends a sentence; the whole text where there is none.
pub fn first_sentence(text: &str) -> String {
    let end = text.match_indices(". ").map(|(at, _)| at).next();
    match end {
        Some(at) => text[..=at].to_string(),
        None => text.to_string(),
    }
}
