//! The change of order: monomials in rising lex order, each either dependent on the standard monomials found or a new one.

use std::collections::{BTreeMap, BTreeSet};

use super::field::{negative, reciprocal};
use super::polynomial::{remainder, Polynomial};
use super::Basis;
use crate::monomial::Monomial;

/// A line of the lex basis: its leading monomial, and the other terms by monomial.
pub struct LexLine {
    pub lead: Monomial,
    pub tail: BTreeMap<Monomial, u32>,
}

/// The lex basis by rising leading monomial, and the standard monomials in rising lex order.
pub struct LexBasis {
    pub lines: Vec<LexLine>,
    pub standard: Vec<Monomial>,
}

/// An eliminated row: a remainder with leading coefficient 1, and the combination of standard monomials that it is the remainder of.
struct Row {
    remainder: Polynomial,
    combination: BTreeMap<Monomial, u32>,
}

/// Adds factor × source to a combination.
fn add_multiple(target: &mut BTreeMap<Monomial, u32>, factor: u32, source: &BTreeMap<Monomial, u32>, p: u32) {
    for (&monomial, &c) in source {
        let sum = (target.get(&monomial).copied().unwrap_or(0) + factor * c) % p;
        if sum == 0 {
            target.remove(&monomial);
        } else {
            target.insert(monomial, sum);
        }
    }
}

/// Cancels in a row what the rows found can cancel.
fn eliminate(mut row: Row, rows: &[Row], p: u32) -> Row {
    for other in rows {
        let pivot = other.remainder.leading_monomial();
        let found = row.remainder.terms().find(|&(monomial, _)| monomial == pivot);
        if let Some((_, c)) = found {
            row.remainder.subtract_multiple(c, Monomial::ONE, &other.remainder, p);
            add_multiple(&mut row.combination, negative(c, p), &other.combination, p);
        }
    }
    row
}

/// A row that is not zero, scaled to leading coefficient 1.
fn scaled(row: &Row, p: u32) -> Row {
    let lead = row.remainder.leading_monomial();
    let leading = row.remainder.terms().find(|&(monomial, _)| monomial == lead).map_or(1, |(_, c)| c);
    let factor = reciprocal(leading, p);
    let mut remainder = Polynomial::default();
    remainder.subtract_multiple(negative(factor, p), Monomial::ONE, &row.remainder, p);
    let mut combination = BTreeMap::new();
    add_multiple(&mut combination, factor, &row.combination, p);
    Row { remainder, combination }
}

/// The remainder of a monomial, from that of a standard monomial found one variable below it.
fn remainder_of(monomial: Monomial, found: &BTreeMap<Monomial, Polynomial>, basis: &Basis) -> Polynomial {
    for variable in (0..basis.n).map(Monomial::variable) {
        if variable.divides(monomial) {
            if let Some(below) = found.get(&monomial.over(variable)) {
                return remainder(below.times(variable), &basis.lines, basis.p);
            }
        }
    }
    remainder(Polynomial::term(1, monomial), &basis.lines, basis.p)
}

/// The reduced lex basis of the ideal of a reduced grevlex Groebner basis, and the standard monomials.
pub fn lex_basis(basis: &Basis) -> LexBasis {
    let p = basis.p;
    let mut result = LexBasis { lines: Vec::new(), standard: Vec::new() };
    let mut rows: Vec<Row> = Vec::new();
    let mut found = BTreeMap::new();
    let mut candidates = BTreeSet::from([Monomial::ONE]);
    while let Some(monomial) = candidates.pop_first() {
        if result.lines.iter().any(|line| line.lead.divides(monomial)) {
            continue;
        }
        let remainder = remainder_of(monomial, &found, basis);
        let start = Row { remainder: remainder.clone(), combination: BTreeMap::from([(monomial, 1)]) };
        let row = eliminate(start, &rows, p);
        if row.remainder.is_zero() {
            let mut tail = row.combination;
            tail.remove(&monomial);
            result.lines.push(LexLine { lead: monomial, tail });
        } else {
            rows.push(scaled(&row, p));
            result.standard.push(monomial);
            found.insert(monomial, remainder);
            candidates.extend((0..basis.n).map(|variable| monomial.times(Monomial::variable(variable))));
        }
    }
    result
}
