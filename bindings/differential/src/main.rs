//! Compares the proved library with an independent implementation.
//!
//! `differential SEED [COUNT]` compares COUNT generated texts, 100,000 if no count is given. `differential SEED show INDEX` prints one of these
//! texts. `differential vectors FOLDER` compares both with the files NAME.in and NAME.out of a folder. The exit status is 0 if nothing differs.
//! A line on standard error tells each 10,000 texts.

mod compare;
mod generator;
mod monomial;
mod random;
mod reference;
mod report;
mod vectors;

use std::io::{self, Write};
use std::path::Path;
use std::process::ExitCode;

use random::Random;
use report::Report;

/// How many texts a run compares if not told otherwise.
const TEXTS: u64 = 100_000;

/// After so many texts a run tells how far it is.
const TOLD: u64 = 10_000;

/// Compares this many texts and prints the report; whether all was well.
fn run(seed: u64, count: u64) -> bool {
    let mut report = Report::new();
    for index in 0..count {
        let mut random = Random::new(seed, index);
        let text = generator::text(&mut random);
        let compared = compare::compare(&mut random, &text.bytes, text.room);
        report.add(seed, index, text.kind, &compared);
        if (index + 1) % TOLD == 0 {
            eprintln!("{} of {count} texts", index + 1);
        }
    }
    report.print(seed);
    report.is_good()
}

/// Prints one text of a run.
fn show(seed: u64, index: u64) -> io::Result<bool> {
    let text = generator::text(&mut Random::new(seed, index));
    io::stdout().write_all(&text.bytes)?;
    Ok(true)
}

/// Does what the arguments ask; None if they are not understood.
fn act(words: &[&str]) -> Option<io::Result<bool>> {
    match *words {
        ["vectors", folder] => Some(vectors::run(Path::new(folder)).map(|wrong| wrong == 0)),
        [seed] => Some(Ok(run(seed.parse().ok()?, TEXTS))),
        [seed, count] => Some(Ok(run(seed.parse().ok()?, count.parse().ok()?))),
        [seed, "show", index] => Some(show(seed.parse().ok()?, index.parse().ok()?)),
        _ => None,
    }
}

fn main() -> ExitCode {
    let arguments: Vec<String> = std::env::args().skip(1).collect();
    let words: Vec<&str> = arguments.iter().map(String::as_str).collect();
    match act(&words) {
        Some(Ok(true)) => ExitCode::SUCCESS,
        Some(Ok(false)) => ExitCode::FAILURE,
        Some(Err(error)) => {
            eprintln!("{error}");
            ExitCode::FAILURE
        }
        None => {
            eprintln!("differential SEED [COUNT] | differential SEED show INDEX | differential vectors FOLDER");
            ExitCode::FAILURE
        }
    }
}
