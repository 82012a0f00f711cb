//! Runs of the proved program and library against the second implementation:
//!
//!     runs program [SEED [COUNT]]     inputs through program share, byte for byte
//!     runs library [SEED [COUNT]]     rounds of calls through the library
//!     runs calendar                   every day, date and changeover
//!     runs soak [SEED [COUNT]]        one service for years, against the book
//!
//! A failure prints its seed; the same command with that seed and a count of 1 shows it again, or, of the soak, with
//! the number of the call that failed.

use runs::{calendar, library, program, random, soak};
use std::process::ExitCode;
use std::time::Instant;

/// The number of an argument, or what stands in for it.
fn number(argument: Option<&String>, otherwise: u64) -> Result<u64, String> {
    match argument {
        Some(text) => text.parse().map_err(|_| format!("'{text}' is no number")),
        None => Ok(otherwise),
    }
}

/// Makes the run that the arguments name.
fn run(arguments: &[String]) -> Result<String, String> {
    let seed = number(arguments.get(1), 1)?;
    let count = |otherwise| number(arguments.get(2), otherwise);
    match arguments.first().map(String::as_str) {
        Some("program") => program::compare(seed, count(program::INPUTS)?),
        Some("library") => library::compare(seed, count(library::ROUNDS)?),
        Some("calendar") => calendar::compare(),
        Some("soak") => soak::run(seed, count(soak::CALLS)?),
        _ => Err("usage: runs program|library|calendar|soak [SEED [COUNT]]".to_string()),
    }
}

fn main() -> ExitCode {
    random::tell_seed();
    let arguments: Vec<String> = std::env::args().skip(1).collect();
    let begin = Instant::now();
    match run(&arguments) {
        Ok(told) => {
            println!(
                "{}: {told} ({:.1} s)",
                arguments.join(" "),
                begin.elapsed().as_secs_f64()
            );
            ExitCode::SUCCESS
        }
        Err(why) => {
            eprintln!("{}: {why}", arguments.join(" "));
            ExitCode::FAILURE
        }
    }
}
