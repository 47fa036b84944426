//! `documents write` writes the generated parts of the documents; `documents check` tells what is stale in them, a line for each finding, and fails if there
//! is any. `check` prints also what is above the bounds on functions, contracts, proofs and the crates' graph; with `--bounds` it fails on these too.

use documents::project::Project;
use documents::{bounds, check, generated};
use std::process::ExitCode;

const USAGE: &str = "usage: documents write | documents check [--bounds]";

fn main() -> ExitCode {
    let arguments: Vec<String> = std::env::args().skip(1).collect();
    let words: Vec<&str> = arguments.iter().map(String::as_str).collect();
    let done = match words.as_slice() {
        ["write"] => write(),
        ["check"] => checked(false),
        ["check", "--bounds"] => checked(true),
        _ => Err(std::io::Error::other(USAGE)),
    };
    match done {
        Ok(true) => ExitCode::SUCCESS,
        Ok(false) => ExitCode::FAILURE,
        Err(e) => {
            eprintln!("documents: {e}");
            ExitCode::from(2)
        }
    }
}

/// The repository that this is run in: the nearest folder with a crates.txt, from the current one upward.
fn project() -> std::io::Result<Project> {
    let here = std::env::current_dir()?;
    let root = here.ancestors().find(|f| f.join("crates.txt").is_file());
    Project::read(root.ok_or_else(|| std::io::Error::other("no crates.txt here or above"))?)
}

fn write() -> std::io::Result<bool> {
    let project = project()?;
    for path in generated::write(&project)? {
        println!("documents: {path} written");
    }
    Ok(true)
}

fn checked(with_bounds: bool) -> std::io::Result<bool> {
    let project = project()?;
    let stale = check(&project);
    let above = bounds::check(&project);
    for finding in above.iter().chain(&stale) {
        println!("{finding}");
    }
    println!(
        "documents: {} crates, {} documents; {} stale; {} above the bounds{}",
        project.crates.len(),
        project.documents().len(),
        stale.len(),
        above.len(),
        if with_bounds { "" } else { " (not counted)" },
    );
    Ok(stale.is_empty() && (above.is_empty() || !with_bounds))
}
