//! State records in files: 49 decimals in a line, parted by spaces.

use std::path::Path;

use rabtishu::{Image, Refusal, State};

use crate::diagnostic::Diagnostic;
use crate::failure::Failure;
use crate::files;

/// Far more bytes than 49 decimals have.
const LONGEST: usize = 4096;

/// Reads a record. One that is none of the image is refused as the cycle refuses it (15): an input
/// row of a right length is judged before the state, so the question is a row of zeros.
pub fn read(image: &Image, path: &Path) -> Result<State, Failure> {
    let bytes = files::read(path, LONGEST)?;
    let words = String::from_utf8_lossy(&bytes).into_owned();
    let numbers: Option<Vec<i32>> = words
        .split_ascii_whitespace()
        .map(|word| word.parse().ok())
        .collect();
    let record = numbers.and_then(|numbers| <[i32; 49]>::try_from(numbers).ok());
    let Some(record) = record else {
        return Err(Failure::Trouble(format!(
            "{} holds no state: 49 numbers",
            files::shown(path)
        )));
    };
    let state = State::from_numbers(record);
    match refused(image, &state) {
        None => Ok(state),
        Some(refusal) => {
            let words = "this state is none of the image".to_string();
            Err(Failure::Refused(Box::new(Diagnostic::of_file(
                &files::shown(path),
                words,
                refusal,
            ))))
        }
    }
}

/// Whether a cycle would refuse the state, whatever its row.
fn refused(image: &Image, state: &State) -> Option<Refusal> {
    let (inputs, mut outputs) = (vec![0; image.inputs()], vec![0; image.outputs()]);
    let tried = image.cycle(&mut state.clone(), &inputs, &mut outputs);
    tried.err().filter(|refusal| refusal.number == 15)
}

/// Keeps a record.
pub fn write(path: &Path, state: &State) -> Result<(), Failure> {
    let words: Vec<String> = state.numbers().iter().map(i32::to_string).collect();
    files::write(path, (words.join(" ") + "\n").as_bytes())
}
