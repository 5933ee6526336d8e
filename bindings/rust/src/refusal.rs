//! Refusals: why a text was not converted, and the line it is about.

use std::error::Error;
use std::fmt;

/// Why a text was refused. The value of a case is its number; cases may be added.
#[derive(Clone, Copy, Debug, PartialEq, Eq, Hash)]
#[non_exhaustive]
#[repr(u8)]
pub enum Refusal {
    /// More than 65,536 input bytes. Line 0.
    InputTooLong = 1,
    /// A line is not of its form or kind at its place, a line or an LF is missing, or something follows the end line. The first such line.
    BadLine = 2,
    /// The order word is not `grevlex`. Line 1.
    OrderNotGrevlex = 3,
    /// p is no prime from 2 to 251. Line 1.
    BadPrime = 4,
    /// n is not 1 to 4. Line 1.
    BadVariableCount = 5,
    /// A coefficient is not 1 to p - 1.
    BadCoefficient = 6,
    /// An exponent is over 32.
    ExponentTooLarge = 7,
    /// A term is not smaller than the one before it.
    TermsNotFalling = 8,
    /// A leading coefficient is not 1.
    NotMonic = 9,
    /// A 98th poly line, or a 34th term in a line.
    TooManyLinesOrTerms = 10,
    /// The end number differs from the number of poly lines. The end line.
    EndNumberDiffers = 11,
    /// A monomial of the line is divisible by another line's leading monomial. The smallest such line.
    NotReduced = 12,
    /// The ideal is not zero-dimensional. Line 0.
    NotZeroDimensional = 13,
    /// More than 32 standard monomials. Line 0.
    TooManyStandardMonomials = 14,
    /// An S-polynomial has a nonzero remainder. The later line of the pair.
    NotGroebner = 15,
    /// The output buffer is shorter than the output. Line 0.
    OutputTooShort = 16,
}

/// Every refusal, by its number.
const REFUSALS: [Refusal; 16] = [
    Refusal::InputTooLong,
    Refusal::BadLine,
    Refusal::OrderNotGrevlex,
    Refusal::BadPrime,
    Refusal::BadVariableCount,
    Refusal::BadCoefficient,
    Refusal::ExponentTooLarge,
    Refusal::TermsNotFalling,
    Refusal::NotMonic,
    Refusal::TooManyLinesOrTerms,
    Refusal::EndNumberDiffers,
    Refusal::NotReduced,
    Refusal::NotZeroDimensional,
    Refusal::TooManyStandardMonomials,
    Refusal::NotGroebner,
    Refusal::OutputTooShort,
];

impl Refusal {
    /// The refusal with this number, if there is one.
    #[must_use]
    pub fn from_number(number: u64) -> Option<Refusal> {
        REFUSALS.into_iter().find(|refusal| refusal.number() == number)
    }

    /// Its number.
    #[must_use]
    pub fn number(self) -> u64 {
        self as u64
    }

    /// Its words.
    fn words(self) -> &'static str {
        match self {
            Refusal::InputTooLong => "more than 65,536 input bytes",
            Refusal::BadLine => "a line not of its form or kind at its place, a missing line or a missing LF, or anything after end",
            Refusal::OrderNotGrevlex => "order word is not grevlex",
            Refusal::BadPrime => "p is no prime from 2 to 251",
            Refusal::BadVariableCount => "n is not 1 to 4",
            Refusal::BadCoefficient => "coefficient not 1 to p - 1",
            Refusal::ExponentTooLarge => "exponent over 32",
            Refusal::TermsNotFalling => "a term not smaller than the one before it",
            Refusal::NotMonic => "leading coefficient not 1",
            Refusal::TooManyLinesOrTerms => "a 98th poly line, or a 34th term in a line",
            Refusal::EndNumberDiffers => "end number differs from the poly lines",
            Refusal::NotReduced => "a monomial of the line is divisible by another line's leading monomial",
            Refusal::NotZeroDimensional => "not zero-dimensional",
            Refusal::TooManyStandardMonomials => "more than 32 standard monomials",
            Refusal::NotGroebner => "an S-polynomial with nonzero remainder",
            Refusal::OutputTooShort => "output buffer shorter than the output",
        }
    }
}

impl fmt::Display for Refusal {
    fn fmt(&self, f: &mut fmt::Formatter<'_>) -> fmt::Result {
        f.write_str(self.words())
    }
}

/// A refused text: the refusal and the line it is about, counted from 1; line 0 is the text as a whole.
#[derive(Clone, Copy, Debug, PartialEq, Eq, Hash)]
pub struct Refused {
    /// Why the text was refused.
    pub refusal: Refusal,
    /// The line of the text, or 0 where no single line is meant.
    pub line: usize,
}

impl fmt::Display for Refused {
    fn fmt(&self, f: &mut fmt::Formatter<'_>) -> fmt::Result {
        write!(f, "refusal {}", self.refusal.number())?;
        if self.line != 0 {
            write!(f, ", line {}", self.line)?;
        }
        write!(f, ": {}", self.refusal)
    }
}

impl Error for Refused {}
