//! Valid bases: the reduced grevlex basis of the polynomials that vanish in an algebra, by Buchberger and Moeller's method.

use std::collections::{BTreeMap, BTreeSet};

use super::algebra::{order_ideal, Algebra};
use super::draft::Draft;
use crate::monomial::{Grevlex, Monomial};
use crate::random::Random;

/// A row of the elimination: its pivot, its entries, and the combination of standard monomials that it stands for, by their index.
struct Row {
    pivot: usize,
    entries: Vec<u32>,
    combination: Vec<u32>,
}

/// The power a^e modulo p.
fn power(a: u32, e: u32, p: u32) -> u32 {
    (0..e).fold(1, |product, _| product * a % p)
}

/// Subtracts factor × source from target, which is at least as long.
fn subtract(target: &mut [u32], factor: u32, source: &[u32], p: u32) {
    for (entry, &s) in target.iter_mut().zip(source) {
        *entry = (*entry + (p - factor) * s) % p;
    }
}

/// Multiplies each entry.
fn scale(row: &mut [u32], factor: u32, p: u32) {
    for entry in row {
        *entry = *entry * factor % p;
    }
}

/// The reduced grevlex basis of the polynomials that vanish in an algebra, by rising leading monomial.
pub fn vanishing(algebra: &Algebra) -> Draft {
    let (p, n) = (algebra.p, algebra.actions.len());
    let mut draft = Draft::new(p, n);
    let mut leads: Vec<Monomial> = Vec::new();
    let mut standard: Vec<Monomial> = Vec::new();
    let mut values: BTreeMap<Monomial, Vec<u32>> = BTreeMap::new();
    let mut rows: Vec<Row> = Vec::new();
    let mut candidates = BTreeSet::from([(Grevlex(Monomial::ONE), 0)]);
    while let Some((Grevlex(monomial), variable)) = candidates.pop_first() {
        if leads.iter().any(|lead| lead.divides(monomial)) || values.contains_key(&monomial) {
            continue;
        }
        let value = match monomial {
            Monomial::ONE => algebra.unit.clone(),
            _ => algebra.times(variable, &values[&monomial.over(Monomial::variable(variable))]),
        };
        let mut entries = value.clone();
        let mut combination = vec![0; standard.len() + 1];
        combination[standard.len()] = 1;
        for row in &rows {
            let factor = entries[row.pivot];
            subtract(&mut entries, factor, &row.entries, p);
            subtract(&mut combination, factor, &row.combination, p);
        }
        match entries.iter().position(|&entry| entry != 0) {
            None => {
                let tail = standard.iter().zip(&combination).filter(|(_, &c)| c != 0).map(|(&s, &c)| (c, s)).collect();
                draft.push(monomial, tail);
                leads.push(monomial);
            }
            Some(pivot) => {
                let inverse = power(entries[pivot], p - 2, p);
                scale(&mut entries, inverse, p);
                scale(&mut combination, inverse, p);
                rows.push(Row { pivot, entries, combination });
                standard.push(monomial);
                values.insert(monomial, value);
                candidates.extend((0..n).map(|i| (Grevlex(monomial.times(Monomial::variable(i))), i)));
            }
        }
    }
    draft
}

/// The smallest monomials outside a set closed under divisors, by rising grevlex order.
pub fn corners(standard: &[Monomial], n: usize) -> Vec<Monomial> {
    if standard.is_empty() {
        return vec![Monomial::ONE];
    }
    let border = standard.iter().flat_map(|s| (0..n).map(|i| s.times(Monomial::variable(i))));
    let outside: BTreeSet<Grevlex> = border.filter(|m| !standard.contains(m)).map(Grevlex).collect();
    let below = |m: Monomial| (0..n).any(|i| m.0[i] > 0 && !standard.contains(&m.over(Monomial::variable(i))));
    outside.into_iter().map(|key| key.0).filter(|&m| !below(m)).collect()
}

/// The monomial ideal of a random set of standard monomials of this size, and that set.
pub fn monomial_ideal(random: &mut Random, p: u32, n: usize, size: usize) -> (Draft, Vec<Monomial>) {
    let standard = order_ideal(random, size, n);
    let mut draft = Draft::new(p, n);
    for corner in corners(&standard, n) {
        draft.push(corner, Vec::new());
    }
    (draft, standard)
}

/// Lines that pass every check but, mostly, 15: corners of a random set of standard monomials with random other terms.
pub fn random_tails(random: &mut Random, p: u32, n: usize, size: usize, density: usize) -> Draft {
    let (bare, standard) = monomial_ideal(random, p, n, size);
    let mut draft = Draft::new(p, n);
    for lead in bare.leads() {
        let mut tail = Vec::new();
        for &monomial in standard.iter().filter(|&&s| Grevlex(s) < Grevlex(lead)) {
            if random.percent(density) {
                tail.push((random.nonzero(p), monomial));
            }
        }
        draft.push(lead, tail);
    }
    draft
}
