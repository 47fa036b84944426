//! `rabtishu check`.

use std::path::Path;

use rabtishu::Image;

use crate::arguments::Arguments;
use crate::failure::Failure;
use crate::files;
use crate::json::Json;
use crate::text::Text;

/// Judges every file, also behind one that is refused; the worst of them is the answer.
pub fn perform(arguments: &Arguments) -> Result<(), Failure> {
    let mut worst = Ok(());
    for path in arguments.operands() {
        let judged = match arguments.has("--json") {
            true => judge_json(path),
            false => judge(path),
        };
        match judged {
            Err(Failure::Closed) => return judged,
            Err(failure) => {
                let told = told(failure);
                if status(&worst) < told.status() {
                    worst = Err(told);
                }
            }
            Ok(()) => (),
        }
    }
    worst
}

fn status(judged: &Result<(), Failure>) -> u8 {
    judged.as_ref().map_or_else(Failure::status, |()| 0)
}

/// Tells a failure at once, so that files are told in their order.
fn told(failure: Failure) -> Failure {
    failure.tell();
    match failure {
        Failure::Misuse(_) | Failure::Trouble(_) => Failure::Troubled,
        _ => Failure::Told,
    }
}

fn judge(path: &Path) -> Result<(), Failure> {
    let text = Text::read(path)?;
    match text.compile() {
        Ok(image) => {
            let lines = statements(&image);
            files::print(
                format!(
                    "{}: accepted: {lines} statements, an image of {} bytes\n",
                    text.file,
                    image.len()
                )
                .as_bytes(),
            )
        }
        Err(refusal) => Err(text.refused(refusal)),
    }
}

fn judge_json(path: &Path) -> Result<(), Failure> {
    let text = Text::read(path)?;
    match text.compile() {
        Ok(image) => files::print((accepted(&text.file, &image).line() + "\n").as_bytes()),
        Err(refusal) => {
            files::print((text.diagnostic(refusal).json().line() + "\n").as_bytes())?;
            Err(Failure::Told)
        }
    }
}

fn accepted(file: &str, image: &[u8]) -> Json {
    Json::Object(vec![
        ("file", Json::Words(file.to_string())),
        ("accepted", Json::Truth(true)),
        ("statements", Json::Number(statements(image) as u64)),
        ("image", Json::Number(image.len() as u64)),
    ])
}

/// How many statements an image has lines for.
fn statements(image: &[u8]) -> usize {
    Image::open(image).map_or(0, |image| image.lines().len() / 12)
}
