//! A text that is still being made: a basis in parts that can be changed one by one.

use crate::monomial::{Grevlex, Monomial};

/// A term as it is written: nothing is assumed of its size.
#[derive(Clone, Debug)]
pub struct Term {
    pub coefficient: u32,
    pub exponents: Vec<u32>,
}

impl Term {
    /// The term coefficient × monomial in n variables.
    pub fn new(coefficient: u32, monomial: Monomial, n: usize) -> Term {
        Term { coefficient, exponents: monomial.0[..n].to_vec() }
    }

    /// Its monomial.
    pub fn monomial(&self) -> Monomial {
        let mut monomial = Monomial::ONE;
        monomial.0[..self.exponents.len()].copy_from_slice(&self.exponents);
        monomial
    }
}

/// The parts of a text.
#[derive(Clone, Debug)]
pub struct Draft {
    pub word: String,
    pub p: u32,
    pub n: usize,
    pub lines: Vec<Vec<Term>>,
    /// The number on the end line, if it is not the number of poly lines.
    pub end: Option<usize>,
}

impl Draft {
    /// The draft without poly lines.
    pub fn new(p: u32, n: usize) -> Draft {
        Draft { word: "grevlex".to_string(), p, n, lines: Vec::new(), end: None }
    }

    /// The leading monomial of each line.
    pub fn leads(&self) -> Vec<Monomial> {
        self.lines.iter().map(|line| line[0].monomial()).collect()
    }

    /// Adds the line with this leading monomial and these other terms, in falling grevlex order.
    pub fn push(&mut self, lead: Monomial, mut tail: Vec<(u32, Monomial)>) {
        tail.sort_by_key(|&(_, monomial)| std::cmp::Reverse(Grevlex(monomial)));
        let terms = std::iter::once((1, lead)).chain(tail);
        self.lines.push(terms.map(|(c, monomial)| Term::new(c, monomial, self.n)).collect());
    }

    /// The bytes of the text.
    pub fn text(&self) -> Vec<u8> {
        let mut text = format!("basis\t{}\t{}\t{}\n", self.word, self.p, self.n);
        for line in &self.lines {
            text.push_str("poly");
            for term in line {
                let exponents: Vec<String> = term.exponents.iter().map(u32::to_string).collect();
                text.push_str(&format!("\t{}:{}", term.coefficient, exponents.join(".")));
            }
            text.push('\n');
        }
        text.push_str(&format!("end\t{}\n", self.end.unwrap_or(self.lines.len())));
        text.into_bytes()
    }
}
