//! The times of Singular: `std` in the ring with order dp, then `fglm` into the ring with order lp.

use std::fs;
use std::io;
use std::path::PathBuf;
use std::process::{Command, Stdio};

use crate::ours::milliseconds;
use crate::text::{lines, Text};

/// What Singular measured and found.
pub struct Found {
    /// Microseconds of one std and one fglm.
    pub microseconds: f64,
    /// How many lines the lex basis has.
    pub lines: usize,
    /// How many standard monomials there are.
    pub standard: usize,
}

/// Whether Singular can be started.
pub fn is_installed() -> bool {
    Command::new("Singular").arg("--version").stdin(Stdio::null()).output().is_ok_and(|output| output.status.success())
}

/// A term `c:a.b` as Singular reads it.
fn term(field: &str) -> String {
    let (coefficient, exponents) = field.split_once(':').unwrap_or((field, ""));
    let powers = exponents.split('.').enumerate().map(|(i, exponent)| format!("*x{}^{exponent}", i + 1));
    format!("{coefficient}{}", powers.collect::<String>())
}

/// The rings and the ideal of a text. The ideal has no mark of a standard basis, so that each `std` computes anew.
fn setting(text: &str) -> String {
    let basis = lines(text, "basis").next().unwrap_or_default();
    let (p, n) = (basis[1], basis[2]);
    let polynomials: Vec<String> = lines(text, "poly").map(|terms| terms.into_iter().map(term).collect::<Vec<_>>().join("+")).collect();
    let variables: Vec<String> = (1..=n.parse().unwrap_or(0)).map(|i: usize| format!("x{i}")).collect();
    let variables = variables.join(",");
    format!("ring s = {p},({variables}),lp;\nring r = {p},({variables}),dp;\nideal i = {};\n", polynomials.join(",\n"))
}

/// The script that times many conversions in one process, and prints five numbers.
///
/// The time of the loop itself, with its changes of ring, is measured too and taken off.
fn timing(text: &str) -> String {
    let setting = setting(text);
    format!(
        "system(\"--ticks-per-sec\",1000000);\n{setting}\
ideal g; int k; int reps; int t; int full; int bare;
setring s; ideal h;
t = rtimer; for (k=1; k<=20; k++) {{ setring r; g = std(i); setring s; h = fglm(r,g); }} t = rtimer-t;
reps = 50000 div (t div 20 + 1) + 10;
t = rtimer; for (k=1; k<=reps; k++) {{ setring r; setring s; }} bare = rtimer-t;
t = rtimer; for (k=1; k<=reps; k++) {{ setring r; g = std(i); setring s; h = fglm(r,g); }} full = rtimer-t;
setring r; int d = vdim(g); setring s;
print(full); print(bare); print(reps); print(size(h)); print(d);
quit;
"
    )
}

/// The script of a whole process: one conversion, printed.
fn conversion(text: &str) -> String {
    format!("{}ideal g = std(i);\nsetring s; ideal h = fglm(r,g); h;\nquit;\n", setting(text))
}

/// Writes a script to a file of its own and names it.
fn script(name: &str, content: &str) -> io::Result<PathBuf> {
    let path = std::env::temp_dir().join(format!("juirkes-{}-{name}.sing", std::process::id()));
    fs::write(&path, content)?;
    Ok(path)
}

/// The numbers that the timing script printed.
fn numbers(output: &str) -> Option<Found> {
    let words: Vec<&str> = output.split_whitespace().collect();
    let [full, bare, reps, lines, standard] = words[..] else { return None };
    let number = |word: &str| word.parse::<f64>().ok();
    let microseconds = (number(full)? - number(bare)?) / number(reps)?;
    Some(Found { microseconds, lines: lines.parse().ok()?, standard: standard.parse().ok()? })
}

/// Times one round on a text.
pub fn time(text: &Text) -> io::Result<Found> {
    let path = script("timing", &timing(&String::from_utf8_lossy(&text.bytes)))?;
    let output = Command::new("Singular").arg("-q").arg(&path).stdin(Stdio::null()).output()?;
    fs::remove_file(&path)?;
    let printed = String::from_utf8_lossy(&output.stdout);
    numbers(&printed).ok_or_else(|| io::Error::other(format!("Singular printed: {printed}")))
}

/// Milliseconds of one whole process of Singular on a text.
pub fn process(text: &Text) -> io::Result<f64> {
    let path = script("process", &conversion(&String::from_utf8_lossy(&text.bytes)))?;
    let time = milliseconds(Command::new("Singular").arg("-q").arg(&path).stdin(Stdio::null()).stdout(Stdio::null()));
    fs::remove_file(&path)?;
    time
}
