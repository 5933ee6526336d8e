//! Checks 12 to 15, on the whole basis.

use std::collections::BTreeSet;

use super::polynomial::{remainder, s_polynomial, Polynomial};
use super::{Basis, Refused};
use crate::monomial::Monomial;

const MOST_STANDARD_MONOMIALS: usize = 32;

/// The first of checks 12 to 15 that a basis fails.
pub fn check(basis: &Basis) -> Result<(), Refused> {
    let leads: Vec<Monomial> = basis.lines.iter().map(Polynomial::leading_monomial).collect();
    if let Some(index) = reducible_line(&basis.lines, &leads) {
        return Err(Refused { number: 12, line: Basis::text_line(index) });
    }
    if !(0..basis.n).all(|variable| leads.iter().any(|lead| lead.is_power_of(variable))) {
        return Err(Refused { number: 13, line: 0 });
    }
    if too_many_standard_monomials(&leads, basis.n) {
        return Err(Refused { number: 14, line: 0 });
    }
    if let Some(index) = failing_pair(basis) {
        return Err(Refused { number: 15, line: Basis::text_line(index) });
    }
    Ok(())
}

/// The first line that has a monomial divisible by another line's leading monomial.
fn reducible_line(lines: &[Polynomial], leads: &[Monomial]) -> Option<usize> {
    (0..lines.len()).find(|&index| {
        let divisible = |monomial: Monomial| leads.iter().enumerate().any(|(other, lead)| other != index && lead.divides(monomial));
        lines[index].terms().any(|(monomial, _)| divisible(monomial))
    })
}

/// Whether more monomials than may be are divisible by no leading monomial, where each variable has a power among these.
fn too_many_standard_monomials(leads: &[Monomial], n: usize) -> bool {
    let mut found = BTreeSet::new();
    let mut candidates = vec![Monomial::ONE];
    while let Some(monomial) = candidates.pop() {
        if leads.iter().any(|lead| lead.divides(monomial)) || !found.insert(monomial) {
            continue;
        }
        if found.len() > MOST_STANDARD_MONOMIALS {
            return true;
        }
        candidates.extend((0..n).map(|variable| monomial.times(Monomial::variable(variable))));
    }
    false
}

/// The later line of the first pair, by later and then by earlier line, whose S-polynomial has a nonzero remainder.
fn failing_pair(basis: &Basis) -> Option<usize> {
    let (lines, p) = (&basis.lines, basis.p);
    let fails = |first: usize, second: usize| !remainder(s_polynomial(&lines[first], &lines[second], p), lines, p).is_zero();
    (0..lines.len()).find(|&later| (0..later).any(|earlier| fails(earlier, later)))
}
