//! What a command is asked about: its files, goal and clause number. What a command does not take stays empty.

use crate::arguments::Request;
use crate::bytes::Bytes;
use crate::lists::{index, Goal, List};
use crate::misuse::{shown, Misuse};
use crate::tasks::Operand;
use std::ffi::OsStr;
use std::io::Read;

#[derive(Debug, Default)]
pub struct Inputs {
    pub book: Bytes,
    pub model: Bytes,
    pub list: List,
    pub goal: Goal,
    pub clause: u64,
}

impl Inputs {
    /// Reads the arguments first, then the files.
    pub fn read(request: &Request) -> Result<Inputs, Misuse> {
        let mut inputs = Inputs::default();
        let operands = || request.task.operands.iter().zip(&request.operands);
        for (operand, word) in operands().filter(|(operand, _)| !operand.is_file()) {
            let word = word.to_string_lossy();
            match operand {
                Operand::Goal => inputs.goal = Goal::read(&word)?,
                _ => inputs.clause = index(&word)?,
            }
        }
        for (operand, word) in operands().filter(|(operand, _)| operand.is_file()) {
            let (name, content) = content(word)?;
            match operand {
                Operand::List => inputs.list = List::read(name, content)?,
                Operand::Model => inputs.model = Bytes::read(name, content, request.form)?,
                _ => inputs.book = Bytes::read(name, content, request.form)?,
            }
        }
        Ok(inputs)
    }
}

/// A file's name in messages and what it holds.
fn content(word: &OsStr) -> Result<(String, Vec<u8>), Misuse> {
    let mut content = Vec::new();
    let (name, read) = if word == "-" {
        ("standard input".to_string(), std::io::stdin().lock().read_to_end(&mut content).map(|_| content))
    } else {
        (shown(word), std::fs::read(word))
    };
    match read {
        Ok(content) => Ok((name, content)),
        Err(error) => Err(Misuse::new(format!("{name} cannot be read: {error}"))),
    }
}
