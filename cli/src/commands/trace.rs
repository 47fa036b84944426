//! `rabtishu trace` and `rabtishu run`: what rows of inputs come to, printed as the proved trace
//! program prints it.

use std::fmt::Write as _;
use std::io::{self, BufRead, BufReader, BufWriter, Write};
use std::path::Path;

use rabtishu::{Image, Refusal, State};

use crate::arguments::Arguments;
use crate::beats::{Beat, Runner};
use crate::diagnostic::{position, Diagnostic};
use crate::failure::Failure;
use crate::files::{self, Output};
use crate::image::{names, ImageFile};
use crate::progress::Progress;
use crate::signals::{statements, Signals};
use crate::state;
use crate::text::Text;
use crate::vcd::Dump;

/// What is run, and what is made of it.
struct Job<'a> {
    image: Image<'a>,
    state: State,
    signals: Signals,
    /// The text, if there is one: refused rows are told by its lines.
    text: Option<&'a Text>,
    rows: &'a Path,
    dump: Option<&'a Path>,
}

/// `rabtishu trace TEXT ROWS`. A refused text prints what the trace program prints for it.
pub fn of_text(arguments: &Arguments) -> Result<(), Failure> {
    let text = Text::read(arguments.operand(0))?;
    let bytes = text.compile().or_else(|refusal| {
        let Refusal { number, place } = refusal;
        files::print(format!("refused {number} {place}\n").as_bytes())?;
        Err(text.refused(refusal))
    })?;
    let image = opened(&bytes)?;
    let job = Job {
        image,
        state: image.fresh(),
        signals: Signals::of_text(&text.bytes),
        text: Some(&text),
        rows: arguments.operand(1),
        dump: arguments.path("--vcd"),
    };
    job.perform().map(|_| ())
}

/// What was compiled opens: this is proved.
fn opened(bytes: &[u8]) -> Result<Image<'_>, Failure> {
    Image::open(bytes).map_err(|refusal| Failure::Trouble(refusal.to_string()))
}

/// `rabtishu run IMAGE ROWS`.
pub fn of_image(arguments: &Arguments) -> Result<(), Failure> {
    let file = ImageFile::read(arguments.operand(0))?;
    let image = file.open()?;
    let kept = arguments.path("--state");
    let job = Job {
        image,
        state: kept.map_or_else(|| Ok(image.fresh()), |path| state::read(&image, path))?,
        signals: names(&image, arguments.path("--names"))?,
        text: None,
        rows: arguments.operand(1),
        dump: arguments.path("--vcd"),
    };
    let last = job.perform()?;
    arguments
        .path("--keep")
        .map_or(Ok(()), |path| state::write(path, &last))
}

impl Job<'_> {
    /// Prints the trace, and answers the state behind the last row.
    fn perform(self) -> Result<State, Failure> {
        let mut source = BufReader::with_capacity(1 << 16, files::open(self.rows)?);
        let mut trace = BufWriter::with_capacity(1 << 16, io::stdout().lock());
        let mut dump = self.dump.map(|path| self.start_dump(path)).transpose()?;
        let mut runner = Runner::new(self.image, self.state.clone());
        let mut refused = Refused::default();
        let header = header(&self.signals);
        trace
            .write_all(header.as_bytes())
            .map_err(|error| files::unprinted(&error))?;
        self.rows(&mut source, &mut runner, &mut |beat| {
            refused.count(beat);
            trace
                .write_all(line(beat).as_bytes())
                .map_err(|error| files::unprinted(&error))?;
            dump.as_mut()
                .map_or(Ok(()), |dump| dump.beat(beat))
                .map_err(|error| self.undumped(&error))
        })?;
        trace.flush().map_err(|error| files::unprinted(&error))?;
        dump.map_or(Ok(()), |dump| dump.end().finish())?;
        self.tell(&refused);
        Ok(runner.state().clone())
    }

    fn start_dump(&self, path: &Path) -> Result<Dump<Output>, Failure> {
        let started = Dump::start(Output::create(path)?, &self.signals, &self.state);
        started.map_err(|error| self.undumped(&error))
    }

    fn undumped(&self, error: &io::Error) -> Failure {
        files::cannot("write", self.dump.unwrap_or(Path::new("the dump")), error)
    }

    /// Runs every row, and shows how far it is.
    fn rows(
        &self,
        source: &mut dyn BufRead,
        runner: &mut Runner,
        each: &mut dyn FnMut(&Beat) -> Result<(), Failure>,
    ) -> Result<(), Failure> {
        /// How many rows are run before the clock is looked at.
        const BATCH: u64 = 1024;
        let (all, mut progress, mut read) = (files::length(self.rows), Progress::start(), 0);
        while let Some((beat, bytes)) = runner
            .next(source)
            .map_err(|error| files::cannot("read", self.rows, &error))?
        {
            each(&beat)?;
            read += bytes;
            if (beat.row + 1) % BATCH == 0 {
                progress.at(beat.row + 1, read, all);
            }
        }
        progress.end();
        Ok(())
    }

    /// Says on standard error how many rows were refused, and why the first of them was.
    fn tell(&self, refused: &Refused) {
        if let Some((row, refusal)) = refused.first {
            let (count, all) = (refused.count, refused.all);
            let rows = files::shown(self.rows);
            let words = format!(
                "row {row}{}; of {all} rows {count} are refused",
                self.statement(refusal)
            );
            let file = format!("{rows}:{}", row + 1);
            let _ = write!(
                io::stderr(),
                "{}",
                Diagnostic::of_file(&file, words, refusal)
            );
        }
    }

    /// The statement that could not be performed, by its line in the text.
    fn statement(&self, refusal: Refusal) -> String {
        let (
            Refusal {
                number: 16 | 18,
                place,
            },
            Some(text),
        ) = (refusal, self.text)
        else {
            return refusal_place(refusal);
        };
        match statements(&text.bytes).get(place as usize) {
            Some(&start) => {
                let at = position(&text.bytes, start);
                format!(
                    ", at statement {place}, {}:{}:{}",
                    text.file, at.line, at.column
                )
            }
            None => refusal_place(refusal),
        }
    }
}

fn refusal_place(refusal: Refusal) -> String {
    match refusal.number {
        14 => String::new(),
        _ => format!(", at statement {}", refusal.place),
    }
}

/// Rows that were refused.
#[derive(Default)]
struct Refused {
    all: u64,
    count: u64,
    first: Option<(u64, Refusal)>,
}

impl Refused {
    fn count(&mut self, beat: &Beat) {
        self.all += 1;
        if let Err(refusal) = beat.result {
            self.count += 1;
            self.first.get_or_insert((beat.row, refusal));
        }
    }
}

/// The header. Without a text outputs have no names: each is `#` and its number.
fn header(signals: &Signals) -> String {
    let outputs = signals.outputs.iter().enumerate();
    let names = outputs.map(|(index, output)| match signals.clock {
        Some(_) => format!(" {}", output.name),
        None => format!(" #{index}"),
    });
    format!("cycle wait lines{}\n", names.collect::<String>())
}

/// The line of the trace for a row.
fn line(beat: &Beat) -> String {
    match &beat.result {
        Ok(performed) => {
            let mut line = format!("{} {} {}", beat.row, performed.wait, performed.lines);
            for output in &performed.outputs {
                let _ = write!(line, " {output}");
            }
            line.push('\n');
            line
        }
        Err(refusal) => format!("{} refused {}\n", beat.row, refusal.number),
    }
}
