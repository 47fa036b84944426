//! `rabtishu report`.

use std::path::Path;

use crate::arguments::Arguments;
use crate::failure::Failure;
use crate::files;
use crate::report::page;
use crate::text::Text;

/// More rows than a page shows are not read.
const LONGEST_ROWS: usize = 1 << 24;

/// Writes a page on the process in a folder; without rows.txt there are no rows, as in `./run`.
pub fn perform(arguments: &Arguments) -> Result<(), Failure> {
    let folder = arguments.operand(0);
    let output = arguments
        .path("-o")
        .map_or_else(|| folder.join("report.html"), Path::to_path_buf);
    let text = Text::read(&folder.join("process.vhd"))?;
    let rows = folder.join("rows.txt");
    let rows = match rows.exists() {
        true => files::read(&rows, LONGEST_ROWS)?,
        false => Vec::new(),
    };
    let name = std::fs::canonicalize(folder).ok();
    let name = name
        .as_deref()
        .and_then(Path::file_name)
        .unwrap_or(folder.as_os_str());
    let page = page(&name.to_string_lossy(), &text, &rows);
    match files::is_standard(&output) {
        true => files::print(page.as_bytes()),
        false => files::write(&output, page.as_bytes()),
    }
}
