//! Files NAME.in with their exact output NAME.out: both converters must give it.

use std::fs;
use std::io;
use std::path::{Path, PathBuf};

use crate::reference::{self, Refused};

/// What the program prints for a refusal.
fn refused_line(refused: Refused) -> Vec<u8> {
    format!("refused\t{}\t{}\n", refused.number, refused.line).into_bytes()
}

/// What the reference prints.
fn by_reference(text: &[u8]) -> Vec<u8> {
    reference::convert(text).unwrap_or_else(refused_line)
}

/// What the library prints.
fn by_library(text: &[u8]) -> Vec<u8> {
    let mut output = vec![0; juirkes::OUTPUT_ROOM];
    match juirkes::convert(text, &mut output) {
        Ok(length) => output[..length].to_vec(),
        Err(refused) => refused_line(Refused { number: refused.refusal.number(), line: refused.line }),
    }
}

/// The files NAME.in in a folder and the folders in it, in order of name.
fn inputs(folder: &Path) -> io::Result<Vec<PathBuf>> {
    let mut found = Vec::new();
    for entry in fs::read_dir(folder)? {
        let path = entry?.path();
        if path.is_dir() {
            found.extend(inputs(&path)?);
        } else if path.extension().is_some_and(|extension| extension == "in") {
            found.push(path);
        }
    }
    found.sort();
    Ok(found)
}

/// Compares both converters with every file of a folder; returns how many files differ.
pub fn run(folder: &Path) -> io::Result<usize> {
    let inputs = inputs(folder)?;
    let mut wrong = 0;
    for path in &inputs {
        let text = fs::read(path)?;
        let expected = fs::read(path.with_extension("out"))?;
        let mut differs = false;
        for (name, output) in [("reference", by_reference(&text)), ("library", by_library(&text))] {
            if output != expected {
                println!("{}: the {name} differs", path.display());
                differs = true;
            }
        }
        wrong += usize::from(differs);
    }
    println!("{} files, {wrong} differences", inputs.len());
    Ok(if inputs.is_empty() { 1 } else { wrong })
}
