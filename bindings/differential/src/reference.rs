//! The independent implementation: the converter written from the description of the format alone, by plain division and Gaussian elimination.

mod checks;
mod enumeration;
mod field;
mod polynomial;
mod print;
mod read;

use polynomial::Polynomial;

/// A refusal: its number and its line.
#[derive(Clone, Copy, Debug, PartialEq, Eq)]
pub struct Refused {
    pub number: u64,
    pub line: usize,
}

/// The basis of a text whose lines passed checks 1 to 11. The line with index i is line i + 2 of the text.
struct Basis {
    p: u32,
    n: usize,
    lines: Vec<Polynomial>,
}

impl Basis {
    /// The text line of the poly line with this index.
    fn text_line(index: usize) -> usize {
        index + 2
    }
}

/// The output for a text, whatever room it needs, or its refusal by one of checks 1 to 15.
pub fn convert(text: &[u8]) -> Result<Vec<u8>, Refused> {
    let basis = read::read(text)?;
    checks::check(&basis)?;
    Ok(print::print(basis.p, basis.n, &enumeration::lex_basis(&basis)))
}
