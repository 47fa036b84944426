//! Links of a document to files and headings.

use crate::document::Document;
use crate::project::Project;

/// Links to files and headings: "[text](file#heading)".
pub fn links(project: &Project, document: &Document, line: &str) -> Vec<String> {
    let mut says = Vec::new();
    for (at, _) in line.match_indices("](") {
        let target = line[at + 2..].split(')').next().unwrap_or("");
        if target.contains("://") {
            continue;
        }
        let (file, heading) = target.split_once('#').unwrap_or((target, ""));
        let folder = document
            .path
            .rsplit_once('/')
            .map_or("", |(folder, _)| folder);
        let path = match (file, folder) {
            ("", _) => document.path.clone(),
            (file, "") => file.to_string(),
            (file, folder) => joined(folder, file),
        };
        if !project.exists(&path) {
            says.push(format!("the link leads nowhere: {target}"));
        } else if !heading.is_empty()
            && !has_heading(&project.text(&path).unwrap_or_default(), heading)
        {
            says.push(format!("{path} has no heading #{heading}"));
        }
    }
    says
}

/// A path from a folder, `..` included.
fn joined(folder: &str, file: &str) -> String {
    let mut parts: Vec<&str> = folder.split('/').collect();
    for part in file.split('/') {
        match part {
            ".." => {
                parts.pop();
            }
            part => parts.push(part),
        }
    }
    parts.join("/")
}

/// Whether a document has a heading of that name, as links spell it: lower case, blanks as hyphens, other signs left out.
fn has_heading(text: &str, heading: &str) -> bool {
    text.lines()
        .filter(|line| line.starts_with('#'))
        .any(|line| {
            let title = line.trim_start_matches('#').trim().to_lowercase();
            let kept = title
                .chars()
                .filter(|c| c.is_alphanumeric() || " -_".contains(*c));
            kept.map(|c| if c == ' ' { '-' } else { c })
                .collect::<String>()
                == heading
        })
}
