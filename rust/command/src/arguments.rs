//! The words of the command line.

use crate::bytes::Form;
use crate::misuse::{quoted, Misuse};
use crate::tasks::{help, Task};
use std::ffi::{OsStr, OsString};
use std::path::PathBuf;

pub struct Request {
    pub task: &'static Task,
    pub operands: Vec<OsString>,
    pub form: Form,
    pub output: Option<PathBuf>,
}

pub enum Wish {
    Show(String),
    Do(Request),
}

pub fn parse(words: &[OsString]) -> Result<Wish, Misuse> {
    let Some((first, rest)) = words.split_first() else {
        return Err(Misuse::new("a command is missing"));
    };
    match &*first.to_string_lossy() {
        "-h" | "--help" => Ok(Wish::Show(help())),
        "-V" | "--version" => Ok(Wish::Show(format!("ruahmitz {}\n", env!("CARGO_PKG_VERSION")))),
        "help" => asked_help(rest).map(Wish::Show),
        _ => {
            let task = task(first)?;
            gather(task, rest).map_err(|misuse| misuse.of(task))
        }
    }
}

fn task(word: &OsStr) -> Result<&'static Task, Misuse> {
    let word = word.to_string_lossy();
    let what = if word.starts_with('-') { "a command comes first, and this is none" } else { "no such command" };
    Task::named(&word).ok_or_else(|| Misuse::new(format!("{what}: {}", quoted(&word))))
}

fn asked_help(rest: &[OsString]) -> Result<String, Misuse> {
    match rest {
        [] => Ok(help()),
        [name] => task(name).map(Task::help),
        _ => Err(Misuse::new("help takes one command at most")),
    }
}

/// The options and operands of a command.
fn gather(task: &'static Task, words: &[OsString]) -> Result<Wish, Misuse> {
    let mut request = Request { task, operands: Vec::new(), form: Form::Any, output: None };
    let mut words = words.iter();
    let mut plain = false;
    while let Some(word) = words.next() {
        let name = word.to_string_lossy();
        if plain || !name.starts_with('-') || name == "-" {
            request.operands.push(word.clone());
            continue;
        }
        match &*name {
            "--" => plain = true,
            "-h" | "--help" => return Ok(Wish::Show(task.help())),
            "--hex" => take_form(&mut request, Form::Hex)?,
            "--binary" => take_form(&mut request, Form::Binary)?,
            _ => take_output(&mut request, &name, &mut words)?,
        }
    }
    whole(&request)?;
    request.output = request.output.filter(|path| path.as_os_str() != "-");
    Ok(Wish::Do(request))
}

fn take_form(request: &mut Request, form: Form) -> Result<(), Misuse> {
    if request.form != Form::Any && request.form != form {
        return Err(Misuse::new("--hex and --binary exclude each other"));
    }
    request.form = form;
    Ok(())
}

/// `-o FILE`, `-oFILE`, `--output FILE` or `--output=FILE`; any other option is none.
fn take_output<'a>(request: &mut Request, name: &str, words: &mut impl Iterator<Item = &'a OsString>) -> Result<(), Misuse> {
    let long = name.strip_prefix("--output=");
    let path = match long.or_else(|| name.strip_prefix("-o").filter(|path| !path.is_empty())) {
        Some(path) => PathBuf::from(path),
        None if name == "-o" || name == "--output" => {
            let path = words.next().ok_or_else(|| Misuse::new(format!("{name} takes a file")))?;
            PathBuf::from(path)
        }
        None => return Err(Misuse::new(format!("no such option: {}", quoted(name)))),
    };
    if !request.task.kind.writes() {
        return Err(Misuse::new(format!("{} writes no file, so {} is out of place", request.task.name, quoted(name))));
    }
    if request.output.replace(path).is_some() {
        return Err(Misuse::new("an output file is given twice"));
    }
    Ok(())
}

/// Whether all operands are there, and standard input once at most.
fn whole(request: &Request) -> Result<(), Misuse> {
    let (task, given) = (request.task, request.operands.len());
    if given != task.operands.len() {
        let wrong = if given < task.operands.len() { "too few arguments" } else { "too many arguments" };
        return Err(Misuse::new(format!("{wrong}: the form is {}", task.usage())));
    }
    let files = task.operands.iter().zip(&request.operands).filter(|(operand, _)| operand.is_file());
    if files.filter(|(_, word)| *word == "-").count() > 1 {
        return Err(Misuse::new("standard input (-) can be read for one argument only"));
    }
    Ok(())
}

#[cfg(test)]
mod tests {
    use super::*;

    fn parsed(line: &str) -> Result<Request, String> {
        let words: Vec<OsString> = line.split_whitespace().map(OsString::from).collect();
        match parse(&words).map_err(|misuse| misuse.what)? {
            Wish::Do(request) => Ok(request),
            Wish::Show(text) => Err(text),
        }
    }

    #[test]
    fn options_stand_anywhere() {
        for line in ["print b -o f --hex", "print --hex -of b", "print --output f b --hex", "print --output=f --hex -- b"] {
            let request = parsed(line).unwrap();
            assert_eq!((request.task.name, request.operands, request.form), ("print", vec!["b".into()], Form::Hex));
            assert_eq!(request.output, Some("f".into()));
        }
    }

    #[test]
    fn dashes() {
        assert_eq!(parsed("print - -o -").unwrap().output, None);
        assert_eq!(parsed("print -- -o").unwrap().operands, ["-o"]);
        assert_eq!(parsed("trace - l 0:-3").unwrap().operands, ["-", "l", "0:-3"]);
    }

    #[test]
    fn help_is_shown() {
        for line in ["help", "-h", "--help", "help print", "print -h", "trace x --help"] {
            assert!(parsed(line).err().unwrap().contains("Exit status"), "{line}");
        }
        assert_eq!(parsed("--version").err().unwrap(), parsed("-V").err().unwrap());
    }
}
