//! Keeps the documents true: writes the parts of them that can be computed (the table of crates, their graph), and finds names, paths and numbers in them
//! that do not exist. It reads README.md, tests/README.md and docs/*.md but docs/LANDINGS.md, docs/PORT.md and docs/DESIGN-PASS.md, which are history, and speak in the
//! names of their day, and docs/source, which has the documents that the repository is held to and says nothing of the repository.

pub mod bounds;
pub mod comments;
pub mod copies;
pub mod crates;
pub mod document;
pub mod generated;
pub mod links;
pub mod names;
pub mod numbers;
pub mod paths;
pub mod project;
pub mod trust;

use project::Project;

/// What is wrong, and where: a file of the repository, and its line where one is known (else 0).
#[derive(Debug, Clone, PartialEq, Eq, PartialOrd, Ord)]
pub struct Finding {
    pub file: String,
    pub line: usize,
    pub says: String,
}

impl Finding {
    pub fn new(file: &str, line: usize, says: String) -> Finding {
        Finding {
            file: file.to_string(),
            line,
            says,
        }
    }
}

impl std::fmt::Display for Finding {
    fn fmt(&self, f: &mut std::fmt::Formatter<'_>) -> std::fmt::Result {
        match self.line {
            0 => write!(f, "{}: {}", self.file, self.says),
            line => write!(f, "{}:{}: {}", self.file, line, self.says),
        }
    }
}

/// All findings in the documents, by file and line.
pub fn check(project: &Project) -> Vec<Finding> {
    let mut found = crates::check(project);
    found.extend(generated::check(project));
    found.extend(comments::check(project));
    found.extend(copies::check(project));
    for document in project.documents() {
        found.extend(names::check(project, &document));
        found.extend(numbers::check(project, &document));
        found.extend(trust::check(project, &document));
    }
    found.sort();
    found.dedup();
    found
}
