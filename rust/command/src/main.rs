//! The command `ruahmitz`: for people at a shell, what the proved kit says of a clause book.

mod arguments;
mod bytes;
mod inputs;
mod judge;
mod lists;
mod misuse;
mod output;
mod readable;
mod sentences;
mod shape;
mod tasks;
mod words;

use arguments::{Request, Wish};
use inputs::Inputs;
use judge::Outcome;
use misuse::Misuse;
use std::process::ExitCode;

const DONE: u8 = 0;
const REFUSED: u8 = 1;
const MISUSED: u8 = 2;

fn main() -> ExitCode {
    let words: Vec<_> = std::env::args_os().skip(1).collect();
    let status = arguments::parse(&words).and_then(|wish| match wish {
        Wish::Show(text) => output::say(&text).map(|()| DONE),
        Wish::Do(request) => perform(&request).map_err(|misuse| misuse.of(request.task)),
    });
    ExitCode::from(status.unwrap_or_else(|misuse| {
        misuse.tell();
        MISUSED
    }))
}

/// Reads what is asked about, asks the kit, and says or writes what came of it. Gives the exit status.
fn perform(request: &Request) -> Result<u8, Misuse> {
    let inputs = Inputs::read(request)?;
    match judge::judge(request.task.kind, &inputs) {
        Outcome::Accepted(words) => output::say(&words).map(|()| DONE),
        Outcome::Refused(words) => output::say(&words).map(|()| REFUSED),
        Outcome::Written { text, size } => match &request.output {
            None => output::show(&text).map(|()| DONE),
            Some(path) => {
                output::replace(path, &text)?;
                output::say(&format!("written: {size}\n")).map(|()| DONE)
            }
        },
    }
}
