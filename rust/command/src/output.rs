//! What goes out: to standard output, or to a file that is replaced as a whole.

use crate::misuse::{shown, Misuse};
use std::fs::{self, File, Permissions};
use std::io::{self, ErrorKind, Write};
use std::path::{Path, PathBuf};

/// Says words on standard output.
pub fn say(words: &str) -> Result<(), Misuse> {
    show(words.as_bytes())
}

/// Writes to standard output; that nobody reads on is no fault.
pub fn show(text: &[u8]) -> Result<(), Misuse> {
    let mut out = io::stdout().lock();
    match out.write_all(text).and_then(|()| out.flush()) {
        Err(error) if error.kind() != ErrorKind::BrokenPipe => Err(failed("standard output", &error)),
        _ => Ok(()),
    }
}

/// Writes a file: all of it, or the file stays as it was. What is no plain file, such as a terminal, is written to.
pub fn replace(path: &Path, text: &[u8]) -> Result<(), Misuse> {
    let written = match fs::metadata(path) {
        Ok(there) if there.is_file() => fs::canonicalize(path).and_then(|path| put(&path, text, Some(there.permissions()))),
        Ok(_) => fs::OpenOptions::new().write(true).open(path).and_then(|mut file| file.write_all(text)),
        Err(_) => put(path, text, None),
    };
    written.map_err(|error| failed(&shown(path.as_os_str()), &error))
}

fn failed(name: &str, error: &io::Error) -> Misuse {
    Misuse::new(format!("{name} cannot be written: {error}"))
}

/// Writes a new file beside the path, and gives it that name when it is whole.
fn put(path: &Path, text: &[u8], permissions: Option<Permissions>) -> io::Result<()> {
    let (mut file, beside) = beside(path)?;
    let named = file
        .write_all(text)
        .and_then(|()| permissions.map_or(Ok(()), |permissions| file.set_permissions(permissions)))
        .and_then(|()| fs::rename(&beside, path));
    if named.is_err() {
        let _ = fs::remove_file(&beside);
    }
    named
}

/// A new file in the same folder, under a name that is free.
fn beside(path: &Path) -> io::Result<(File, PathBuf)> {
    path.file_name().ok_or_else(|| io::Error::new(ErrorKind::InvalidInput, "it is no file's name"))?;
    for count in 0.. {
        let beside = path.with_file_name(format!(".ruahmitz.{}.{count}", std::process::id()));
        match File::create_new(&beside) {
            Err(error) if error.kind() == ErrorKind::AlreadyExists => {}
            made => return made.map(|file| (file, beside)),
        }
    }
    unreachable!("some name is free")
}
