//! The command `rabtishu`.

use std::process::ExitCode;

fn main() -> ExitCode {
    ExitCode::from(rabtishu_cli::run(std::env::args_os().skip(1).collect()))
}
