//! Prints a table of times: the library and the program against Singular's std and fglm, on the texts of `data`.
//!
//! Each round takes its turn: the library, Singular, the program, Singular's process. A time is the least of the rounds.

mod ours;
mod singular;
mod text;

use std::io;
use std::path::{Path, PathBuf};
use std::process::ExitCode;

use text::Text;

/// How many rounds are run, of which the least time counts.
const ROUNDS: usize = 15;

/// The least times of one text; None where a program is missing.
struct Times {
    conversion: f64,
    singular: Option<f64>,
    process: Option<f64>,
    singular_process: Option<f64>,
}

/// The program: what `JUIRKES_PROGRAM` names, else `crates/juirkes/out/juirkes` of the repository.
fn program() -> Option<PathBuf> {
    let default = || Path::new(env!("CARGO_MANIFEST_DIR")).join("../../crates/juirkes/out/juirkes");
    let path = std::env::var_os("JUIRKES_PROGRAM").map_or_else(default, PathBuf::from);
    path.is_file().then_some(path)
}

/// The smaller of a time and one measured before.
fn least(before: Option<f64>, time: f64) -> Option<f64> {
    Some(before.map_or(time, |before| before.min(time)))
}

/// An error where Singular's basis has another size than ours.
fn agree(text: &Text, found: &singular::Found, output: &str) -> io::Result<()> {
    let lines = text::lines(output, "poly").count();
    let standard = text::lines(output, "stairs").map(|fields| fields.len()).sum();
    if (found.lines, found.standard) == (lines, standard) {
        return Ok(());
    }
    Err(io::Error::other(format!("{}: Singular finds {} lines and {} standard monomials", text.name, found.lines, found.standard)))
}

/// Measures one text.
fn measure(text: &Text, program: Option<&Path>, with_singular: bool) -> io::Result<Times> {
    let output = ours::output(&text.bytes).map_err(io::Error::other)?;
    if let Some(program) = program {
        if ours::process_output(program, &text.path)? != output.as_bytes() {
            return Err(io::Error::other(format!("{}: the program prints another output than the library", text.name)));
        }
    }
    let mut times = Times { conversion: f64::INFINITY, singular: None, process: None, singular_process: None };
    for _ in 0..ROUNDS {
        times.conversion = times.conversion.min(ours::conversion(&text.bytes));
        if with_singular {
            let found = singular::time(text)?;
            agree(text, &found, &output)?;
            times.singular = least(times.singular, found.microseconds);
        }
        if let Some(program) = program {
            times.process = least(times.process, ours::process(program, &text.path)?);
        }
        if with_singular {
            times.singular_process = least(times.singular_process, singular::process(text)?);
        }
    }
    Ok(times)
}

/// A time with its decimals, or what is missing.
fn cell(time: Option<f64>, decimals: usize, missing: &str) -> String {
    time.map_or(missing.to_string(), |time| format!("{time:.decimals$}"))
}

/// Prints the row of one text.
fn print_row(text: &Text, times: &Times) {
    let ratio = times.singular.map(|singular| singular / times.conversion);
    println!(
        "{:<22}{:>10.2}{:>14}{:>8}{:>14}{:>14}",
        text.name,
        times.conversion,
        cell(times.singular, 2, "no Singular"),
        cell(ratio, 1, "-"),
        cell(times.process, 2, "no program"),
        cell(times.singular_process, 2, "no Singular")
    );
}

/// Measures every text and prints the table.
fn run() -> io::Result<()> {
    let texts = text::texts(&Path::new(env!("CARGO_MANIFEST_DIR")).join("data"))?;
    let program = program();
    let with_singular = singular::is_installed();
    println!("{:<22}{:>10}{:>14}{:>8}{:>14}{:>14}", "", "ours", "std + fglm", "ratio", "our process", "Singular's");
    println!("{:<22}{:>10}{:>14}{:>8}{:>14}{:>14}", "text", "us", "us", "", "ms", "process ms");
    for text in &texts {
        print_row(text, &measure(text, program.as_deref(), with_singular)?);
    }
    println!("ours: one call, reading, all checks and writing; std + fglm: in one process, reading and printing not counted.");
    println!("Each time is the least of {ROUNDS} rounds, taken in turn.");
    Ok(())
}

fn main() -> ExitCode {
    match run() {
        Ok(()) => ExitCode::SUCCESS,
        Err(error) => {
            eprintln!("{error}");
            ExitCode::FAILURE
        }
    }
}
