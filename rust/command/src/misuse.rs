//! Misuse: what was wrong, and how to get help.

use crate::tasks::Task;
use std::ffi::OsStr;
use std::io::Write;

#[derive(Debug)]
pub struct Misuse {
    pub what: String,
    pub task: Option<&'static Task>,
}

impl Misuse {
    pub fn new(what: impl Into<String>) -> Misuse {
        Misuse { what: what.into(), task: None }
    }

    /// The same, of a command.
    pub fn of(self, task: &'static Task) -> Misuse {
        Misuse { task: Some(task), ..self }
    }

    /// Says it on standard error.
    pub fn tell(&self) {
        let name = self.task.map_or(String::new(), |task| format!(" {}", task.name));
        let _ = writeln!(std::io::stderr(), "ruahmitz: {}\nruahmitz: for help: ruahmitz help{name}", self.what);
    }
}

/// A file's name, as a message shows it.
pub fn shown(name: &OsStr) -> String {
    match &*name.to_string_lossy() {
        "" => "''".into(),
        name => name.chars().map(|c| if c.is_control() { '?' } else { c }).collect(),
    }
}

/// Words of the user's, as a message shows them: marked off, cut when long, nothing in them that a terminal would act on.
pub fn quoted(word: &str) -> String {
    const MOST: usize = 40;
    let shown: String = word.chars().take(MOST).flat_map(char::escape_debug).collect();
    let more = if word.chars().nth(MOST).is_some() { "..." } else { "" };
    format!("'{shown}{more}'")
}
