//! Polynomials with their terms in grevlex order, and the division by a list of them.

use std::collections::BTreeMap;

use super::field::negative;
use crate::monomial::{Grevlex, Monomial};

/// Terms by monomial; no coefficient is 0.
#[derive(Clone, Debug, Default)]
pub struct Polynomial {
    terms: BTreeMap<Grevlex, u32>,
}

impl Polynomial {
    /// The polynomial with this one term.
    pub fn term(coefficient: u32, monomial: Monomial) -> Polynomial {
        Polynomial { terms: BTreeMap::from([(Grevlex(monomial), coefficient)]) }
    }

    /// Whether it has no term.
    pub fn is_zero(&self) -> bool {
        self.terms.is_empty()
    }

    /// Its terms, smallest first in grevlex.
    pub fn terms(&self) -> impl Iterator<Item = (Monomial, u32)> + '_ {
        self.terms.iter().map(|(key, &coefficient)| (key.0, coefficient))
    }

    /// The leading monomial of a polynomial that is not zero.
    pub fn leading_monomial(&self) -> Monomial {
        let (key, _) = self.terms.last_key_value().expect("a polynomial that is not zero");
        key.0
    }

    /// Adds coefficient × monomial, 0 <= coefficient < p.
    pub fn add_term(&mut self, coefficient: u32, monomial: Monomial, p: u32) {
        let key = Grevlex(monomial);
        let sum = (self.terms.get(&key).copied().unwrap_or(0) + coefficient) % p;
        if sum == 0 {
            self.terms.remove(&key);
        } else {
            self.terms.insert(key, sum);
        }
    }

    /// Subtracts coefficient × monomial × other.
    pub fn subtract_multiple(&mut self, coefficient: u32, monomial: Monomial, other: &Polynomial, p: u32) {
        for (factor, c) in other.terms() {
            self.add_term(negative(coefficient * c % p, p), monomial.times(factor), p);
        }
    }

    /// Multiplied by a monomial.
    pub fn times(&self, monomial: Monomial) -> Polynomial {
        Polynomial { terms: self.terms.iter().map(|(key, &c)| (Grevlex(key.0.times(monomial)), c)).collect() }
    }
}

/// The remainder by a list of monic lines: the greatest term that a leading monomial divides is cancelled by the earliest such line,
/// until there is none.
///
/// Terms are taken from the greatest down: cancelling one changes smaller terms only.
pub fn remainder(mut rest: Polynomial, lines: &[Polynomial], p: u32) -> Polynomial {
    let leads: Vec<Monomial> = lines.iter().map(Polynomial::leading_monomial).collect();
    let mut done = Polynomial::default();
    while !rest.is_zero() {
        let monomial = rest.leading_monomial();
        let coefficient = rest.terms[&Grevlex(monomial)];
        match leads.iter().position(|lead| lead.divides(monomial)) {
            Some(i) => rest.subtract_multiple(coefficient, monomial.over(leads[i]), &lines[i], p),
            None => {
                rest.terms.remove(&Grevlex(monomial));
                done.terms.insert(Grevlex(monomial), coefficient);
            }
        }
    }
    done
}

/// The S-polynomial of two monic lines.
pub fn s_polynomial(first: &Polynomial, second: &Polynomial, p: u32) -> Polynomial {
    let (a, b) = (first.leading_monomial(), second.leading_monomial());
    let multiple = a.least_common_multiple(b);
    let mut difference = first.times(multiple.over(a));
    difference.subtract_multiple(1, multiple.over(b), second, p);
    difference
}
