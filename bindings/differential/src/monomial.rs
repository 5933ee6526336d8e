//! Monomials in up to four variables, with the lex and the grevlex order.

use std::cmp::Ordering;

/// The most variables a text may have.
pub const MOST_VARIABLES: usize = 4;

/// A row of exponents, those of the variables that a text lacks being 0. The derived order of the rows is lex with x1 > x2 > x3 > x4.
#[derive(Clone, Copy, Debug, PartialEq, Eq, Hash, PartialOrd, Ord)]
pub struct Monomial(pub [u32; MOST_VARIABLES]);

impl Monomial {
    /// The monomial 1.
    pub const ONE: Monomial = Monomial([0; MOST_VARIABLES]);

    /// The variable with this index from 0.
    pub fn variable(index: usize) -> Monomial {
        let mut exponents = [0; MOST_VARIABLES];
        exponents[index] = 1;
        Monomial(exponents)
    }

    /// The total degree.
    pub fn degree(self) -> u32 {
        self.0.iter().sum()
    }

    /// The product.
    pub fn times(self, other: Monomial) -> Monomial {
        Monomial(std::array::from_fn(|i| self.0[i] + other.0[i]))
    }

    /// Whether it divides the other.
    pub fn divides(self, other: Monomial) -> bool {
        (0..MOST_VARIABLES).all(|i| self.0[i] <= other.0[i])
    }

    /// The quotient by a monomial that divides it.
    pub fn over(self, divisor: Monomial) -> Monomial {
        Monomial(std::array::from_fn(|i| self.0[i] - divisor.0[i]))
    }

    /// The least common multiple.
    pub fn least_common_multiple(self, other: Monomial) -> Monomial {
        Monomial(std::array::from_fn(|i| self.0[i].max(other.0[i])))
    }

    /// Whether it is a power of the variable with this index, exponent 0 included.
    pub fn is_power_of(self, index: usize) -> bool {
        (0..MOST_VARIABLES).all(|i| i == index || self.0[i] == 0)
    }

    /// The exponents of n variables, parted by dots.
    pub fn text(self, n: usize) -> String {
        let exponents: Vec<String> = self.0[..n].iter().map(u32::to_string).collect();
        exponents.join(".")
    }
}

/// A monomial that is compared in grevlex.
#[derive(Clone, Copy, Debug, PartialEq, Eq, Hash)]
pub struct Grevlex(pub Monomial);

impl Ord for Grevlex {
    /// Higher total degree first; at equal degree the greater one has the smaller exponent in the rightmost place that differs.
    fn cmp(&self, other: &Grevlex) -> Ordering {
        let by_degree = self.0.degree().cmp(&other.0.degree());
        let by_last = || other.0 .0.iter().rev().cmp(self.0 .0.iter().rev());
        by_degree.then_with(by_last)
    }
}

impl PartialOrd for Grevlex {
    fn partial_cmp(&self, other: &Grevlex) -> Option<Ordering> {
        Some(self.cmp(other))
    }
}

#[cfg(test)]
mod tests {
    use super::*;

    #[test]
    fn grevlex_is_not_lex_at_equal_degree() {
        // x1·x3 is smaller than x2^2.
        assert!(Grevlex(Monomial([1, 0, 1, 0])) < Grevlex(Monomial([0, 2, 0, 0])));
        assert!(Monomial([1, 0, 1, 0]) > Monomial([0, 2, 0, 0]));
    }

    #[test]
    fn a_higher_degree_is_greater_in_grevlex() {
        assert!(Grevlex(Monomial([0, 0, 0, 2])) > Grevlex(Monomial([1, 0, 0, 0])));
    }
}
