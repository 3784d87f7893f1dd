//! Checks the proved library call by call against an implementation written
//! from the documents alone. See README.md for the modes.

mod answers;
mod bench;
mod boundaries;
mod cases;
mod checks;
mod compare;
mod editing;
mod edits;
mod ffi;
mod hex;
mod inputs;
mod job;
mod lending;
mod pairs;
mod random;
mod reference;
mod respelling;
mod spellings;
mod tuned;
mod vectors;

use std::io::{Read, Write};
use std::process::ExitCode;

const USAGE: &str = "usage: crosscheck compare [SEED]
       crosscheck tuned [SEED]
       crosscheck spellings [SEED]
       crosscheck edits [SEED]
       crosscheck vectors DIR [slow]
       crosscheck bench [DIR] [slow]
       crosscheck boundaries CALLS
       crosscheck job    (a job on standard input)";

/// The seed when none is given.
const SEED: u64 = 2026;

/// The seed among the arguments.
fn seed(argument: Option<&String>) -> Option<u64> {
    argument.map_or(Some(SEED), |text| text.parse().ok())
}

/// The reference as the program of document 01.
fn run_job() -> bool {
    let mut bytes = Vec::new();
    if std::io::stdin().read_to_end(&mut bytes).is_err() {
        return false;
    }
    let output = reference::job(&bytes);
    std::io::stdout().write_all(output.as_bytes()).is_ok()
}

/// Runs a mode. None: not a mode; otherwise whether all is well.
fn run(arguments: &[String]) -> Option<bool> {
    let slow = arguments.last().is_some_and(|last| last == "slow");
    let given = &arguments[..arguments.len() - usize::from(slow)];
    let argument = given.get(1);
    match given.first()?.as_str() {
        "compare" => Some(compare::compare(seed(argument)?)),
        "tuned" => Some(compare::compare_tuned(seed(argument)?)),
        "spellings" => Some(spellings::spellings(seed(argument)?)),
        "edits" => Some(edits::edits(seed(argument)?)),
        "vectors" => Some(vectors::vectors(argument?, slow)),
        "bench" => Some(bench::bench(argument.map(String::as_str), slow)),
        "boundaries" => Some(boundaries::boundaries(argument?)),
        "job" => Some(run_job()),
        _ => None,
    }
}

fn main() -> ExitCode {
    let arguments: Vec<String> = std::env::args().skip(1).collect();
    match run(&arguments) {
        Some(true) => ExitCode::SUCCESS,
        Some(false) => ExitCode::from(1),
        None => {
            eprintln!("{USAGE}");
            ExitCode::from(2)
        }
    }
}
