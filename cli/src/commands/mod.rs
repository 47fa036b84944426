//! The commands.

mod check;
mod compile;
mod explain;
mod moved;
mod report;
mod show;
mod trace;

use std::ffi::OsString;

use crate::arguments::{Arguments, Choice, Command};
use crate::failure::Failure;
use crate::files;

const OUTPUT: &str = "-o";

/// Every command, in the order in which help shows them.
pub const COMMANDS: [Command; 8] = [
    Command {
        name: "check",
        usage: "[--json] FILE..",
        operands: 1..=usize::MAX,
        summary: "say of each text whether it is accepted, and if not, why, where and what to do",
        choices: &[Choice {
            name: "--json",
            value: None,
            summary: "one JSON object for each file, in a line of its own",
        }],
        perform: check::perform,
    },
    Command {
        name: "compile",
        usage: "FILE [-o IMAGE] [--form N] [--room BYTES]",
        operands: 1..=1,
        summary: "write the image of a text",
        choices: &[
            Choice {
                name: OUTPUT,
                value: Some("IMAGE"),
                summary: "where to; without it FILE with the ending .image",
            },
            Choice {
                name: "--form",
                value: Some("N"),
                summary: "the form of the image; this version writes form 1",
            },
            Choice {
                name: "--room",
                value: Some("BYTES"),
                summary: "refuse (10) an image that is longer",
            },
        ],
        perform: compile::perform,
    },
    Command {
        name: "trace",
        usage: "TEXT ROWS [--vcd FILE]",
        operands: 2..=2,
        summary: "print what a text does with rows of inputs",
        choices: &[Choice {
            name: "--vcd",
            value: Some("FILE"),
            summary: "write a value change dump besides",
        }],
        perform: trace::of_text,
    },
    Command {
        name: "run",
        usage: "IMAGE ROWS [--names TEXT] [--vcd FILE] [--state FILE] [--keep FILE]",
        operands: 2..=2,
        summary: "print what an image does with rows of inputs",
        choices: &[
            Choice {
                name: "--names",
                value: Some("TEXT"),
                summary: "take names from the text of the image",
            },
            Choice {
                name: "--vcd",
                value: Some("FILE"),
                summary: "write a value change dump besides",
            },
            Choice {
                name: "--state",
                value: Some("FILE"),
                summary: "begin at a kept state, not at the fresh one",
            },
            Choice {
                name: "--keep",
                value: Some("FILE"),
                summary: "keep the state behind the last row",
            },
        ],
        perform: trace::of_image,
    },
    Command {
        name: "show",
        usage: "IMAGE [--names TEXT]",
        operands: 1..=1,
        summary: "print the signature, the lines and the code of an image in words",
        choices: &[Choice {
            name: "--names",
            value: Some("TEXT"),
            summary: "take names from the text of the image",
        }],
        perform: show::perform,
    },
    Command {
        name: "move",
        usage: "IMAGE --form N -o FILE",
        operands: 1..=1,
        summary: "write an image in another form; this version has form 1 alone",
        choices: &[
            Choice {
                name: "--form",
                value: Some("N"),
                summary: "the form of the new image",
            },
            Choice {
                name: OUTPUT,
                value: Some("FILE"),
                summary: "where to",
            },
        ],
        perform: moved::perform,
    },
    Command {
        name: "report",
        usage: "DIR [-o FILE.html]",
        operands: 1..=1,
        summary: "write a page with text, table and waves of DIR/process.vhd and DIR/rows.txt",
        choices: &[Choice {
            name: OUTPUT,
            value: Some("FILE.html"),
            summary: "where to; without it DIR/report.html",
        }],
        perform: report::perform,
    },
    Command {
        name: "explain",
        usage: "NUMBER",
        operands: 1..=1,
        summary: "explain a refusal",
        choices: &[],
        perform: explain::perform,
    },
];

/// Performs the command that some arguments ask for.
pub fn perform(given: Vec<OsString>) -> Result<(), Failure> {
    let Some((name, rest)) = given.split_first() else {
        return Err(Failure::Misuse("no command is given".to_string()));
    };
    let name = name.to_string_lossy();
    let asks_help = |word: &OsString| word == "--help" || word == "-h";
    match name.as_ref() {
        "--help" | "-h" | "help" => return files::print(help().as_bytes()),
        "--version" | "-V" => return files::print(version().as_bytes()),
        _ => (),
    }
    match COMMANDS.iter().find(|command| command.name == name) {
        Some(command) if rest.iter().any(asks_help) => files::print(help_of(command).as_bytes()),
        Some(command) => (command.perform)(&Arguments::read(command, rest)?),
        None => Err(Failure::Misuse(format!("there is no command {name}"))),
    }
}

fn version() -> String {
    format!(
        "rabtishu {} (images of form 1)\n",
        env!("CARGO_PKG_VERSION")
    )
}

fn help() -> String {
    let mut lines = vec![
        "rabtishu: a proved compiler from ABC-VHDL to cycle tables for countdown boards"
            .to_string(),
        String::new(),
    ];
    for command in &COMMANDS {
        lines.push(format!("  rabtishu {} {}", command.name, command.usage));
        lines.push(format!("      {}", command.summary));
    }
    lines.push(String::new());
    lines.push(
        "  rabtishu COMMAND --help shows a command's options; rabtishu --version the version."
            .to_string(),
    );
    lines.push(
        "  - as a file to be read is standard input, as a file to be written standard output."
            .to_string(),
    );
    lines.push(
        "  The exit status is 0 for done, 1 for refused, 2 for misuse or trouble with a file."
            .to_string(),
    );
    lines.join("\n") + "\n"
}

fn help_of(command: &Command) -> String {
    let mut lines = vec![
        format!("rabtishu {} {}", command.name, command.usage),
        format!("  {}", command.summary),
    ];
    for choice in command.choices {
        let head = format!("{} {}", choice.name, choice.value.unwrap_or(""));
        lines.push(format!("  {head:16} {}", choice.summary));
    }
    lines.join("\n") + "\n"
}
