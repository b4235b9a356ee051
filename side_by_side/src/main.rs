//! Holds the proved memory set against the Rust crate that it is a port of, and against a model of
//! document 01, the project's specification. See README.md in this folder.

mod any_calls;
mod any_runs;
mod any_tables;
mod bench;
mod calls;
mod compare;
mod comparison;
mod crate_side;
mod differences;
mod every_call;
mod exhaustive;
mod ground;
mod ground_runs;
mod library;
mod model;
mod numbers;
mod oracle;
mod pair;
mod random;
mod small_inputs;
mod tables;
mod trial;

use std::env;
use std::num::NonZeroU64;
use std::process::ExitCode;

const USAGE: &str = "\
usage: run [compare [SEED [ROUNDS]]]   compare with the crate and the model; ROUNDS makes random runs longer
       run differences                 show where the crate differs from document 01, by smallest inputs
       run oracle RECORDS LINES        write requests for the record program and the lines they give
       run bench                       time the library and the crate";

const SEED: u64 = 1;

fn main() -> ExitCode {
    let words: Vec<String> = env::args().skip(1).collect();
    let words: Vec<&str> = words.iter().map(String::as_str).collect();
    let done = match words.as_slice() {
        [] | ["compare"] => comparison::run(SEED, 1),
        ["compare", numbers @ ..] => match read_numbers(numbers) {
            Some((seed, rounds)) => comparison::run(seed, rounds),
            None => return usage(),
        },
        ["differences"] => differences::run(),
        ["oracle", records, lines] => oracle::write(records, lines),
        ["bench"] => {
            bench::run();
            Ok(())
        }
        _ => return usage(),
    };
    match done {
        Ok(()) => ExitCode::SUCCESS,
        Err(report) => {
            println!("{report}");
            ExitCode::FAILURE
        }
    }
}

fn usage() -> ExitCode {
    eprintln!("{USAGE}");
    ExitCode::from(2)
}

/// A seed, and a number of rounds other than 0 if there is one.
fn read_numbers(words: &[&str]) -> Option<(u64, u64)> {
    match words {
        [seed] => Some((seed.parse().ok()?, 1)),
        [seed, rounds] => Some((seed.parse().ok()?, rounds.parse::<NonZeroU64>().ok()?.get())),
        _ => None,
    }
}
