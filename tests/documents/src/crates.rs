//! The crates: their groups, the table, the graph by levels, and the way of the data.

use crate::project::{Crate, Project};
use crate::Finding;
use std::collections::{BTreeMap, BTreeSet};

/// A group of crates: how their names begin, and what they have.
pub struct Group {
    pub prefix: &'static str,
    pub title: &'static str,
    pub holds: &'static str,
}

pub const GROUPS: [Group; 8] = [
    Group {
        prefix: "spec_",
        title: "definitions and theorems",
        holds: "what must be believed, and what is proved of it: grammar, rules, equations, image, promises; no code",
    },
    Group {
        prefix: "base_",
        title: "what all share",
        holds: "numbers under their names, answers, words, integers, operators, a design in arrays; files, for programs",
    },
    Group {
        prefix: "front_",
        title: "text to design",
        holds: "tokens, readers of the grammar, the rules, the design; refusals 1 to 9",
    },
    Group {
        prefix: "image_",
        title: "design to image, image to rows",
        holds: "compiling (refusal 10), opening an image (11 to 13), a row or many rows on it (14 to 18)",
    },
    Group {
        prefix: "direct_",
        title: "the run without an image",
        holds: "a row from the text alone, which the table is held to",
    },
    Group {
        prefix: "trace_",
        title: "the trace program",
        holds: "header and lines of a trace as proved functions, and the program that reads and writes the files",
    },
    Group {
        prefix: "api_",
        title: "the interfaces",
        holds: "the public operations, for Rattle and for C",
    },
    Group {
        prefix: "test_",
        title: "test programs",
        holds: "no part of the product: programs whose output is stored, and loops for the benchmark",
    },
];

/// The way of the data, a stage behind another. A crate that is not named stands where its group stands.
const STAGES: [(&str, &[&str]); 6] = [
    (
        "text to tokens",
        &[
            "front_layout",
            "front_token",
            "front_lexer",
            "front_limits",
            "front_cursor",
        ],
    ),
    ("tokens to tree", &["front_"]),
    (
        "tree to design",
        &["front_elaborator", "front_operands", "front_accept"],
    ),
    (
        "design to image",
        &[
            "image_words",
            "image_flow",
            "image_encoder",
            "image_compiler",
        ],
    ),
    ("image to rows, design to rows", &["image_", "direct_"]),
    ("interfaces and programs", &["trace_", "api_", "test_"]),
];

/// Groups that have nothing of a crate or of another group, by whatever way: who, whom, and why.
const APART: [(&str, &str, &str); 4] = [
    (
        "front_",
        "spec_format",
        "the front end has nothing of an image",
    ),
    (
        "direct_",
        "spec_format",
        "the direct run has nothing of an image",
    ),
    (
        "direct_",
        "image_",
        "the direct run has nothing of an image",
    ),
    (
        "image_",
        "direct_",
        "the run of an image has nothing of the direct run",
    ),
];

/// The group of a crate. `trace` is the program of its group.
pub fn group_of(name: &str) -> Option<&'static Group> {
    let named = if name == "trace" { "trace_" } else { name };
    GROUPS.iter().find(|g| named.starts_with(g.prefix))
}

/// Whether a word is the beginning that the names of a group have.
pub fn is_prefix(word: &str) -> bool {
    GROUPS.iter().any(|g| g.prefix == word)
}

/// Whether a name begins as the names of crates do.
pub fn has_prefix(name: &str) -> bool {
    GROUPS
        .iter()
        .any(|g| name.len() > g.prefix.len() && name.starts_with(g.prefix))
}

/// The stage of a crate; none for spec_ and base_, which all may name.
fn stage_of(name: &str) -> Option<usize> {
    let named = if name == "trace" { "trace_" } else { name };
    let exact = STAGES
        .iter()
        .position(|(_, crates)| crates.contains(&named));
    exact.or_else(|| {
        let prefix = group_of(name)?.prefix;
        STAGES
            .iter()
            .position(|(_, crates)| crates.contains(&prefix))
    })
}

/// Crates and folders that do not agree, and crates without a group or a header comment.
pub fn check(project: &Project) -> Vec<Finding> {
    let mut found = Vec::new();
    let folders: BTreeSet<&str> = project
        .files
        .iter()
        .filter_map(|f| f.strip_prefix("crates/")?.split('/').next())
        .collect();
    for folder in folders.iter().filter(|f| !project.is_crate(f)) {
        let says = format!("crates/{folder} has no line here");
        found.push(Finding::new("crates.txt", 0, says));
    }
    for c in &project.crates {
        let mut tell = |says: String| found.push(Finding::new("crates.txt", 0, says));
        if !folders.contains(c.name.as_str()) {
            tell(format!("{} has no folder in crates/", c.name));
        }
        if group_of(&c.name).is_none() {
            tell(format!("{} begins with the name of no group", c.name));
        }
        if c.header.is_empty() {
            tell(format!(
                "{} has no header comment in src/lib.rt or src/main.rt",
                c.name
            ));
        }
        let folder = format!("crates/{}", c.name);
        for named in c
            .depends
            .iter()
            .filter(|d| !project.has_word_in(&folder, d))
        {
            tell(format!("{} lists {named}, which it names nowhere", c.name));
        }
    }
    found
}

/// Dependencies against the way of the data.
pub fn against_the_way(project: &Project) -> Vec<Finding> {
    let reached = reached(project);
    let mut found = Vec::new();
    for c in &project.crates {
        for named in &c.depends {
            let back = matches!((stage_of(&c.name), stage_of(named)), (Some(a), Some(b)) if a < b);
            // What such a group reaches by another of them is told there.
            let told = |whom: &str| {
                let mut groups = APART.iter().filter(|(_, other, _)| *other == whom);
                groups.any(|(who, _, _)| named.starts_with(who))
            };
            let leads = |whom: &str| {
                let mut through = reached[named.as_str()].iter();
                named.starts_with(whom) || !told(whom) && through.any(|r| r.starts_with(whom))
            };
            let apart = APART
                .iter()
                .find(|(who, whom, _)| c.name.starts_with(who) && leads(whom));
            let reason = match apart {
                Some((_, whom, reason)) => format!("{reason} ({whom})"),
                None if back => "that is behind it on the way of the data".to_string(),
                None => continue,
            };
            let says = format!("{} depends on {named}: {reason}", c.name);
            found.push(Finding::new("crates.txt", 0, says));
        }
    }
    found
}

/// What each crate reaches through the crates it names, by name.
fn reached(project: &Project) -> BTreeMap<&str, BTreeSet<&str>> {
    let mut reached: BTreeMap<&str, BTreeSet<&str>> = BTreeMap::new();
    // crates.txt lists a crate behind those that it names, but this does not rely on it.
    for _ in 0..project.crates.len() {
        let before: usize = reached.values().map(BTreeSet::len).sum();
        for c in &project.crates {
            let mut all: BTreeSet<&str> = c.depends.iter().map(String::as_str).collect();
            for named in &c.depends {
                all.extend(reached.get(named.as_str()).into_iter().flatten());
            }
            reached.insert(&c.name, all);
        }
        if reached.values().map(BTreeSet::len).sum::<usize>() == before {
            break;
        }
    }
    reached
}

/// The crates that a crate names and reaches through no other.
fn nearest<'a>(c: &'a Crate, reached: &BTreeMap<&str, BTreeSet<&str>>) -> Vec<&'a str> {
    let through = |d: &str| {
        let others = c.depends.iter().filter(|o| o.as_str() != d);
        others.into_iter().any(|o| reached[o.as_str()].contains(d))
    };
    let names = c.depends.iter().map(String::as_str);
    names.filter(|d| !through(d)).collect()
}

/// One more than the highest level of what a crate names.
fn levels(project: &Project) -> BTreeMap<&str, usize> {
    let reached = reached(project);
    let mut order: Vec<&Crate> = project.crates.iter().collect();
    order.sort_by_key(|c| reached[c.name.as_str()].len());
    let mut levels: BTreeMap<&str, usize> = BTreeMap::new();
    for c in order {
        let below = c.depends.iter().filter_map(|d| levels.get(d.as_str()));
        let level = below.max().map_or(0, |l| l + 1);
        levels.insert(&c.name, level);
    }
    levels
}

/// The crates of a group, lower levels first.
fn members<'a>(project: &'a Project, group: &Group) -> Vec<&'a Crate> {
    let levels = levels(project);
    let of_group = |c: &&Crate| group_of(&c.name).is_some_and(|g| g.prefix == group.prefix);
    let mut members: Vec<&Crate> = project.crates.iter().filter(of_group).collect();
    members.sort_by_key(|c| (levels[c.name.as_str()], c.name.clone()));
    members
}

/// The table of crates, group by group.
pub fn table(project: &Project) -> Vec<String> {
    let reached = reached(project);
    let mut lines = Vec::new();
    for group in &GROUPS {
        lines.push(format!("### {}: {}", group.prefix, group.title));
        lines.push("| crate | depends on | what it has |".to_string());
        lines.push("|---|---|---|".to_string());
        for c in members(project, group) {
            let mut named = nearest(c, &reached);
            named.extend(c.libraries.iter().map(String::as_str));
            let header = c.header.replace('|', "\\|");
            lines.push(format!("| {} | {} | {header} |", c.name, named.join(", ")));
        }
        lines.push(String::new());
    }
    lines.pop();
    lines
}

/// The graph: a line for each level, each crate with the nearest of what it depends on.
pub fn graph(project: &Project) -> Vec<String> {
    let reached = reached(project);
    let levels = levels(project);
    let top = levels.values().max().copied().unwrap_or(0);
    let mut lines = Vec::new();
    for level in 0..=top {
        let mut drawn: Vec<String> = project
            .crates
            .iter()
            .filter(|c| levels[c.name.as_str()] == level)
            .map(|c| match nearest(c, &reached).join(" ") {
                none if none.is_empty() => c.name.clone(),
                named => format!("{}({named})", c.name),
            })
            .collect();
        drawn.sort();
        lines.extend(wrapped(&format!("{level:>6}"), &drawn));
    }
    lines
}

/// The way of the data: a line for each stage, with its crates; then the dependencies against it.
pub fn way(project: &Project) -> Vec<String> {
    let mut lines = Vec::new();
    for (number, (title, _)) in STAGES.iter().enumerate() {
        let mut of_stage: Vec<String> = project
            .crates
            .iter()
            .filter(|c| stage_of(&c.name) == Some(number))
            .map(|c| c.name.clone())
            .collect();
        of_stage.sort();
        lines.extend(wrapped(&format!("    {title:<30}"), &of_stage));
    }
    let against = against_the_way(project);
    lines.extend(
        against
            .iter()
            .map(|f| format!("    against it: {}", f.says)),
    );
    lines
}

/// Words behind a label, in lines of at most 150 characters.
fn wrapped(label: &str, words: &[String]) -> Vec<String> {
    let blank = " ".repeat(label.chars().count());
    let mut lines = Vec::new();
    let mut line = label.to_string();
    for word in words {
        if line.len() + word.len() > 148 {
            lines.push(std::mem::replace(&mut line, blank.clone()));
        }
        line.push_str("  ");
        line.push_str(word);
    }
    lines.push(line);
    lines
}

/// The groups in one line each, for README.
pub fn groups(project: &Project) -> Vec<String> {
    let mut lines = vec!["| crates | | |".to_string(), "|---|---|---|".to_string()];
    for group in &GROUPS {
        let count = members(project, group).len();
        let name = match group.prefix {
            "trace_" => "trace, trace_",
            prefix => prefix,
        };
        lines.push(format!(
            "| {count} {name} | {} | {} |",
            group.title, group.holds
        ));
    }
    lines
}
