//! Compares the proved kit, and fast Rust, with the judge on generated inputs.
//!
//! `compare [--seed N] [--cases N] [--only CASE]`: the case of a number depends on the seed and that number alone, so that one which
//! failed can be run again by itself. The last line is `N passed, M failed`; the exit status is 1 if any failed.

use ruahmitz_compare::cases::Case;
use ruahmitz_compare::compare::{Comparer, Difference};
use ruahmitz_compare::lists::Question;
use std::process::ExitCode;
use std::sync::atomic::{AtomicU64, Ordering};
use std::time::Duration;

/// A run of at least this length must reach every answer often enough.
const FULL: u64 = 100_000;
/// So many failing cases are printed.
const PRINTED: u64 = 5;
/// Longer lists are cut short in what is printed, unless the case is run alone.
const SHORT: usize = 500;
/// A case that takes longer has failed; the slowest takes a fraction of a second.
const PATIENCE: Duration = Duration::from_secs(60);

/// The case that is run now.
static CURRENT: AtomicU64 = AtomicU64::new(u64::MAX);

struct Options {
    seed: u64,
    cases: u64,
    only: Option<u64>,
}

fn options() -> Result<Options, String> {
    let mut options = Options { seed: 1, cases: FULL, only: None };
    let mut arguments = std::env::args().skip(1);
    while let Some(name) = arguments.next() {
        let value = arguments.next().ok_or(format!("{name} takes a number"))?;
        let value = value.parse().map_err(|_| format!("{value} is not a number"))?;
        match name.as_str() {
            "--seed" => options.seed = value,
            "--cases" => options.cases = value,
            "--only" => options.only = Some(value),
            _ => return Err(format!("no option {name}; there are --seed, --cases and --only")),
        }
    }
    Ok(options)
}

fn hex(bytes: &[u8]) -> String {
    bytes.iter().map(|byte| format!("{byte:02x}")).collect()
}

fn print_question(name: &str, question: &Question, most: usize) {
    let list = &question.list;
    let shown: Vec<String> = list.iter().take(most).map(i32::to_string).collect();
    let more = if list.len() > most { " .. (run it alone to see all)" } else { "" };
    println!("  {name}: {} numbers: {}{more}", list.len(), shown.join(" "));
    println!("    goal: relation {}, values {:?}", question.relation, question.values);
}

fn print_case(options: &Options, number: u64, case: &Case, differences: &[Difference]) {
    println!("seed {}, case {number}:", options.seed);
    let most = if options.only.is_some() { usize::MAX } else { SHORT };
    println!("  book: {}", hex(&case.book));
    print_question("derivation", &case.derivation, most);
    print_question("trace", &case.trace, most);
    println!("  model: {}", hex(&case.model));
    for difference in differences {
        println!("  {difference}");
    }
}

/// Ends the run, as failed, if one case goes on for too long.
fn watch(seed: u64) {
    std::thread::spawn(move || loop {
        let case = CURRENT.load(Ordering::Relaxed);
        std::thread::sleep(PATIENCE);
        if case == CURRENT.load(Ordering::Relaxed) {
            println!("seed {seed}, case {case}: no answer within {} seconds", PATIENCE.as_secs());
            println!("0 passed, 1 failed");
            std::process::exit(1);
        }
    });
}

/// Runs the cases; gives how many passed and failed.
fn run(options: &Options) -> (u64, u64) {
    let numbers = options.only.map_or(0..options.cases, |only| only..only + 1);
    let mut comparer = Comparer::default();
    let (mut passed, mut failed) = (0, 0);
    watch(options.seed);
    for number in numbers {
        CURRENT.store(number, Ordering::Relaxed);
        let case = Case::make(options.seed, number);
        if comparer.case(&case) {
            passed += 1;
            continue;
        }
        failed += 1;
        if failed <= PRINTED {
            print_case(options, number, &case, &comparer.differences);
        }
        comparer.differences.clear();
    }
    comparer.tally.print();
    if passed + failed >= FULL {
        for fault in comparer.tally.faults() {
            println!("coverage: {fault}");
            failed += 1;
        }
    }
    (passed, failed)
}

fn main() -> ExitCode {
    let options = match options() {
        Ok(options) => options,
        Err(message) => {
            eprintln!("compare: {message}");
            return ExitCode::from(2);
        }
    };
    let (passed, failed) = run(&options);
    println!("{passed} passed, {failed} failed");
    ExitCode::from(u8::from(failed > 0))
}
