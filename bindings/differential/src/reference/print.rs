//! Printing the lex basis and its standard monomials.

use super::enumeration::LexBasis;
use crate::monomial::Monomial;

/// The output text.
pub fn print(p: u32, n: usize, basis: &LexBasis) -> Vec<u8> {
    let mut text = format!("basis\tlex\t{p}\t{n}\n");
    for line in &basis.lines {
        text.push_str(&format!("poly\t1:{}", line.lead.text(n)));
        for (monomial, coefficient) in line.tail.iter().rev() {
            text.push_str(&format!("\t{coefficient}:{}", monomial.text(n)));
        }
        text.push('\n');
    }
    let standard = basis.standard.iter().map(|monomial: &Monomial| format!("\t{}", monomial.text(n)));
    text.push_str(&format!("stairs{}\n", standard.collect::<String>()));
    text.push_str(&format!("runs\t{}\nend\t{}\n", basis.standard.len(), basis.lines.len()));
    text.into_bytes()
}
