//! `seeds FOLDER COUNT`: writes the comparison's first cases into the folder, for the fuzzer to begin with.

use ruahmitz_compare::cases::Case;
use ruahmitz_fuzz::pack;
use std::path::Path;
use std::process::ExitCode;

/// Longer ones slow the fuzzer down.
const MOST: usize = 1_000;

fn write(folder: &Path, count: u64) -> std::io::Result<()> {
    std::fs::create_dir_all(folder)?;
    for number in 0..count {
        match pack(&Case::make(1, number)) {
            Some(data) if data.len() <= MOST => std::fs::write(folder.join(format!("case-{number}")), data)?,
            _ => {}
        }
    }
    Ok(())
}

fn main() -> ExitCode {
    let arguments: Vec<String> = std::env::args().skip(1).collect();
    let [folder, count] = &arguments[..] else {
        eprintln!("seeds FOLDER COUNT");
        return ExitCode::from(2);
    };
    let Ok(count) = count.parse() else {
        eprintln!("seeds: {count} is not a number");
        return ExitCode::from(2);
    };
    match write(Path::new(folder), count) {
        Ok(()) => ExitCode::SUCCESS,
        Err(error) => {
            eprintln!("seeds: {folder}: {error}");
            ExitCode::from(2)
        }
    }
}
