//! The table of what an auditor must believe (docs/TRUST.md, "part, files, lines"): its numbers of lines, and that it leaves no definition out.

use crate::document::{cells, Document};
use crate::paths::files_in;
use crate::project::Project;
use crate::Finding;
use std::collections::BTreeSet;
use std::fs;
use std::io;

const TRUST: &str = "docs/TRUST.md";

/// How the sentence begins that names the definitions which are tied to others by a theorem and so need not be believed.
const TIED: &str = "Executable definitions that a theorem ties to these";

/// A row of the table: its line, its files and what it says of their lines.
struct Row {
    line: usize,
    files: Vec<String>,
    says: String,
}

impl Row {
    fn lines(&self, project: &Project) -> usize {
        let count = |file: &String| project.text(file).map_or(0, |text| text.lines().count());
        self.files.iter().map(count).sum()
    }
}

fn rows(project: &Project, document: &Document) -> Vec<Row> {
    let mut rows = Vec::new();
    let mut in_table = false;
    for (line, text) in document.numbered() {
        match cells(text).as_slice() {
            ["part", "files", "lines"] => in_table = true,
            [_, files, says] if in_table => rows.push(Row {
                line,
                files: files_in(project, files),
                says: says.to_string(),
            }),
            _ if text.trim().is_empty() => in_table = false,
            _ => {}
        }
    }
    rows
}

/// Numbers of lines that are stale, and modules that a listed module uses and the table leaves out.
pub fn check(project: &Project, document: &Document) -> Vec<Finding> {
    if document.path != TRUST {
        return Vec::new();
    }
    let rows = rows(project, document);
    let mut listed: BTreeSet<String> = rows.iter().flat_map(|r| r.files.clone()).collect();
    let tied = document.lines.iter().filter(|l| l.starts_with(TIED));
    listed.extend(tied.flat_map(|l| files_in(project, l)));
    let mut found = Vec::new();
    for row in &rows {
        let is = row.lines(project);
        if row.says != is.to_string() {
            let says = format!(
                "the files have {is} lines, not {}: run `documents write`",
                row.says
            );
            found.push(Finding::new(TRUST, row.line, says));
        }
        for file in &row.files {
            let text = project.text(file).unwrap_or_default();
            for used in used(project, &text).difference(&listed) {
                let says = format!("{file} uses {used}, which is not listed");
                found.push(Finding::new(TRUST, row.line, says));
            }
        }
    }
    found
}

/// The modules that a module of definitions uses: "use Rattle.crate.specs.Module". What is declared in code is not among them, nor what is the toolchain's.
fn used(project: &Project, text: &str) -> BTreeSet<String> {
    text.lines()
        .map(|line| line.strip_prefix("pub ").unwrap_or(line))
        .filter_map(|line| line.strip_prefix("use Rattle."))
        .filter_map(|name| {
            let mut parts = name.split(['.', ' ']);
            let owner = parts.next().filter(|owner| project.is_crate(owner))?;
            let folder = parts.next()?;
            let module = parts.next().filter(|module| *module != "declared")?;
            Some(format!("crates/{owner}/{folder}/{module}.antt"))
        })
        .collect()
}

/// Writes the numbers of lines anew.
pub fn write(project: &Project) -> io::Result<Vec<String>> {
    let mut document = Document::new(TRUST, &project.text(TRUST)?);
    let mut changed = false;
    for row in rows(project, &document) {
        let is = row.lines(project).to_string();
        if is != row.says {
            let end = format!("| {} |", row.says);
            let line = &mut document.lines[row.line - 1];
            *line = format!("{}| {is} |", line.trim_end_matches(&end));
            changed = true;
        }
    }
    if !changed {
        return Ok(Vec::new());
    }
    fs::write(project.root.join(TRUST), document.lines.join("\n") + "\n")?;
    Ok(vec![TRUST.to_string()])
}
