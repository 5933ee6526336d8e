//! Reading a text: checks 1 to 11.

use super::field::is_prime;
use super::polynomial::Polynomial;
use super::{Basis, Refused};
use crate::monomial::{Grevlex, Monomial};

const MOST_BYTES: usize = 65_536;
const MOST_LINES: usize = 97;
const MOST_TERMS: usize = 33;
const GREATEST_EXPONENT: u32 = 32;
const GREATEST_PRIME: u32 = 251;
const MOST_VARIABLES: u32 = 4;

/// The lines of a text that are still to be read, and the number of the last one taken.
struct Lines<'a> {
    rest: &'a [u8],
    number: usize,
}

impl<'a> Lines<'a> {
    /// The fields of the next line; refusal 2 if it is absent or has no LF.
    fn next(&mut self) -> Result<Vec<&'a [u8]>, Refused> {
        self.number += 1;
        let end = self.rest.iter().position(|&byte| byte == b'\n').ok_or(self.refused(2))?;
        let line = &self.rest[..end];
        self.rest = &self.rest[end + 1..];
        Ok(line.split(|&byte| byte == b'\t').collect())
    }

    /// A refusal at the line taken last.
    fn refused(&self, number: u64) -> Refused {
        Refused { number, line: self.number }
    }
}

/// A number: 1 to 5 digits with no leading zero, except 0 itself.
fn number(field: &[u8]) -> Option<u32> {
    let digits = (1..=5).contains(&field.len()) && field.iter().all(u8::is_ascii_digit);
    let leading_zero = field.len() > 1 && field[0] == b'0';
    if !digits || leading_zero {
        return None;
    }
    Some(field.iter().fold(0, |value, digit| 10 * value + u32::from(digit - b'0')))
}

/// The order word, p and n of a basis line of the right form.
fn basis_line<'a>(fields: &[&'a [u8]]) -> Option<(&'a [u8], u32, u32)> {
    let [b"basis", word, p, n] = *fields else { return None };
    let letters = (1..=8).contains(&word.len()) && word.iter().all(u8::is_ascii_lowercase);
    if !letters {
        return None;
    }
    Some((word, number(p)?, number(n)?))
}

/// A term as it is written: the coefficient and n exponents of any size.
struct Written {
    coefficient: u32,
    exponents: Vec<u32>,
}

/// A term of the right form with n exponents.
fn term(field: &[u8], n: usize) -> Option<Written> {
    let parts: Vec<&[u8]> = field.split(|&byte| byte == b':').collect();
    let [coefficient, row] = parts[..] else { return None };
    let exponents: Option<Vec<u32>> = row.split(|&byte| byte == b'.').map(number).collect();
    let exponents = exponents.filter(|row| row.len() == n)?;
    Some(Written { coefficient: number(coefficient)?, exponents })
}

/// What stands on a line after the basis line, if it is of the right form.
enum Line {
    Poly(Vec<Written>),
    End(u32),
}

/// The poly or end line with these fields.
fn later_line(fields: &[&[u8]], n: usize) -> Option<Line> {
    match fields {
        [b"poly", terms @ ..] if !terms.is_empty() => {
            let terms: Option<Vec<Written>> = terms.iter().map(|field| term(field, n)).collect();
            terms.map(Line::Poly)
        }
        [b"end", count] => number(count).map(Line::End),
        _ => None,
    }
}

/// The polynomial of a poly line, or the number of the first check, 10 and 6 to 9, that its terms fail.
fn polynomial(terms: &[Written], p: u32) -> Result<Polynomial, u64> {
    let mut polynomial = Polynomial::default();
    let mut before: Option<Monomial> = None;
    for (index, written) in terms.iter().enumerate() {
        if index == MOST_TERMS {
            return Err(10);
        }
        if written.coefficient == 0 || written.coefficient >= p {
            return Err(6);
        }
        if written.exponents.iter().any(|&exponent| exponent > GREATEST_EXPONENT) {
            return Err(7);
        }
        let mut monomial = Monomial::ONE;
        monomial.0[..written.exponents.len()].copy_from_slice(&written.exponents);
        match before {
            None if written.coefficient != 1 => return Err(9),
            Some(before) if Grevlex(monomial) >= Grevlex(before) => return Err(8),
            _ => {}
        }
        polynomial.add_term(written.coefficient, monomial, p);
        before = Some(monomial);
    }
    Ok(polynomial)
}

/// The basis of a text, or the first of checks 1 to 11 that it fails.
pub fn read(text: &[u8]) -> Result<Basis, Refused> {
    if text.len() > MOST_BYTES {
        return Err(Refused { number: 1, line: 0 });
    }
    let mut lines = Lines { rest: text, number: 0 };
    let fields = lines.next()?;
    let (word, p, n) = basis_line(&fields).ok_or(lines.refused(2))?;
    if word != b"grevlex" {
        return Err(lines.refused(3));
    }
    if p > GREATEST_PRIME || !is_prime(p) {
        return Err(lines.refused(4));
    }
    if !(1..=MOST_VARIABLES).contains(&n) {
        return Err(lines.refused(5));
    }
    let mut basis = Basis { p, n: n as usize, lines: Vec::new() };
    loop {
        let fields = lines.next()?;
        match later_line(&fields, basis.n).ok_or(lines.refused(2))? {
            Line::Poly(terms) => {
                if basis.lines.len() == MOST_LINES {
                    return Err(lines.refused(10));
                }
                basis.lines.push(polynomial(&terms, p).map_err(|number| lines.refused(number))?);
            }
            Line::End(count) => {
                if count as usize != basis.lines.len() {
                    return Err(lines.refused(11));
                }
                if !lines.rest.is_empty() {
                    return Err(Refused { number: 2, line: lines.number + 1 });
                }
                return Ok(basis);
            }
        }
    }
}
