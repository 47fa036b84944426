//! The command `rabtishu`: checks, compiles, runs and shows processes of countdown boards.
//!
//! Every verdict, image and row comes from the proved functions, through the crate `rabtishu`; what
//! stands here reads and writes files, and puts answers into words. It is tested, not proved.

pub mod arguments;
pub mod beats;
pub mod commands;
pub mod diagnostic;
pub mod expression;
pub mod failure;
pub mod files;
pub mod image;
pub mod json;
pub mod progress;
pub mod refusals;
pub mod report;
pub mod rows;
pub mod show;
pub mod signals;
pub mod state;
pub mod table;
pub mod text;
pub mod tokens;
pub mod vcd;

use std::ffi::OsString;

/// Performs the command that the arguments ask for, and answers the exit status: 0 done, 1 refused,
/// 2 misuse or trouble with a file.
pub fn run(arguments: Vec<OsString>) -> u8 {
    match commands::perform(arguments) {
        Ok(()) => 0,
        Err(failure) => {
            failure.tell();
            failure.status()
        }
    }
}
