//! Files: read with plain words when it cannot be done, written whole or not at all.

use std::ffi::{OsStr, OsString};
use std::fs::{self, File, OpenOptions};
use std::io::{self, BufWriter, ErrorKind, Read, Write};
use std::path::{Path, PathBuf};

use crate::failure::Failure;

/// A file name as it is shown; `-` is standard input.
pub fn shown(path: &Path) -> String {
    match is_standard(path) {
        true => "<standard input>".to_string(),
        false => path.display().to_string(),
    }
}

/// Whether a path is `-`, which stands for standard input or output.
pub fn is_standard(path: &Path) -> bool {
    path == Path::new("-")
}

/// Opens a file, or standard input, to be read.
pub fn open(path: &Path) -> Result<Box<dyn Read>, Failure> {
    if is_standard(path) {
        return Ok(Box::new(io::stdin()));
    }
    let file = File::open(path).map_err(|error| cannot("read", path, &error))?;
    match file.metadata() {
        Ok(data) if data.is_dir() => Err(directory("read", path)),
        _ => Ok(Box::new(file)),
    }
}

/// The first `limit` bytes of a file, or all if there are fewer.
pub fn read(path: &Path, limit: usize) -> Result<Vec<u8>, Failure> {
    let mut bytes = Vec::new();
    let mut part = open(path)?.take(limit as u64);
    match part.read_to_end(&mut bytes) {
        Ok(_) => Ok(bytes),
        Err(error) => Err(cannot("read", path, &error)),
    }
}

/// How many bytes a file has, if that can be told without reading it.
pub fn length(path: &Path) -> Option<u64> {
    let data = fs::metadata(path).ok().filter(|data| data.is_file());
    data.map(|data| data.len())
}

/// Writes a file whole: what stood there before stays until the new bytes are all there.
pub fn write(path: &Path, bytes: &[u8]) -> Result<(), Failure> {
    let mut output = Output::create(path)?;
    output
        .write_all(bytes)
        .map_err(|error| cannot("write", path, &error))?;
    output.finish()
}

/// A file that is being written beside its place, and gets its name when it is finished. Dropped
/// before that, it leaves nothing.
pub struct Output {
    target: PathBuf,
    /// The file beside the target, while there is one; none where a pipe or a device is written.
    beside: Option<PathBuf>,
    file: BufWriter<File>,
}

impl Output {
    /// Begins a file.
    pub fn create(path: &Path) -> Result<Output, Failure> {
        if is_standard(path) {
            let words = "- stands for standard output, which holds something else here";
            return Err(Failure::Misuse(words.to_string()));
        }
        // A link is followed, so that it is its target that gets the bytes.
        let target = fs::canonicalize(path).unwrap_or_else(|_| path.to_path_buf());
        match fs::metadata(&target) {
            Ok(data) if data.is_dir() => Err(directory("write", path)),
            Ok(data) if !data.is_file() => Output::device(target),
            _ => Output::beside(target),
        }
    }

    /// Pipes and devices have no bytes to keep, and must not be replaced.
    fn device(target: PathBuf) -> Result<Output, Failure> {
        let opened = OpenOptions::new().write(true).open(&target);
        let file = opened.map_err(|error| cannot("write", &target, &error))?;
        Ok(Output {
            target,
            beside: None,
            file: BufWriter::new(file),
        })
    }

    fn beside(target: PathBuf) -> Result<Output, Failure> {
        let beside = target.with_file_name(hidden(target.file_name()));
        let opened = OpenOptions::new()
            .write(true)
            .create_new(true)
            .open(&beside);
        let file = opened.map_err(|error| cannot("write", &target, &error))?;
        Ok(Output {
            target,
            beside: Some(beside),
            file: BufWriter::new(file),
        })
    }

    /// Gives the file its name, once all bytes are on the disk.
    pub fn finish(mut self) -> Result<(), Failure> {
        let done = self.close();
        done.map_err(|error| cannot("write", &self.target, &error))
    }

    fn close(&mut self) -> io::Result<()> {
        self.file.flush()?;
        if let Some(beside) = &self.beside {
            self.file.get_ref().sync_all()?;
            fs::rename(beside, &self.target)?;
            self.beside = None;
        }
        Ok(())
    }
}

impl Write for Output {
    fn write(&mut self, bytes: &[u8]) -> io::Result<usize> {
        self.file.write(bytes)
    }

    fn flush(&mut self) -> io::Result<()> {
        self.file.flush()
    }
}

impl Drop for Output {
    fn drop(&mut self) {
        if let Some(beside) = &self.beside {
            let _ = fs::remove_file(beside);
        }
    }
}

/// The name of the file beside the target: two commands at once do not meet.
fn hidden(name: Option<&OsStr>) -> OsString {
    let mut hidden = OsString::from(".");
    hidden.push(name.unwrap_or_default());
    hidden.push(format!(".{}.new", std::process::id()));
    hidden
}

/// Writes to standard output. A reader that has closed it, `head` say, is no trouble.
pub fn print(bytes: &[u8]) -> Result<(), Failure> {
    let mut output = io::stdout().lock();
    let written = output.write_all(bytes).and_then(|()| output.flush());
    written.map_err(|error| unprinted(&error))
}

/// What a failed write to standard output means.
pub fn unprinted(error: &io::Error) -> Failure {
    match error.kind() {
        ErrorKind::BrokenPipe => Failure::Closed,
        _ => cannot("write", Path::new("standard output"), error),
    }
}

fn directory(what: &str, path: &Path) -> Failure {
    Failure::Trouble(format!(
        "cannot {what} {}: it is a directory",
        path.display()
    ))
}

/// A failed operation on a file in plain words.
pub fn cannot(what: &str, path: &Path, error: &io::Error) -> Failure {
    let why = match error.kind() {
        ErrorKind::NotFound if what == "write" => "its folder does not exist".to_string(),
        ErrorKind::NotFound => "there is no such file".to_string(),
        ErrorKind::PermissionDenied => "permission denied".to_string(),
        ErrorKind::IsADirectory => "it is a directory".to_string(),
        ErrorKind::NotADirectory => "a part of its path is no folder".to_string(),
        ErrorKind::StorageFull => "the disk is full".to_string(),
        ErrorKind::ReadOnlyFilesystem => "the disk can only be read".to_string(),
        _ => error.to_string(),
    };
    Failure::Trouble(format!("cannot {what} {}: {why}", shown(path)))
}
