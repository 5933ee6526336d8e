//! Texts aimed at each refusal.

use super::algebra::random_algebra;
use super::basis::{monomial_ideal, random_tails, vanishing};
use super::draft::{Draft, Term};
use super::{any_valid, damaged, prime};
use crate::monomial::{Grevlex, Monomial};
use crate::random::Random;

/// A text aimed at the refusal with this number.
pub fn text(random: &mut Random, number: u64) -> Vec<u8> {
    let mut draft = any_valid(random);
    match number {
        1 => return long_text(random, &draft),
        2 => return damaged::bad_form(random, draft.text()),
        3 => draft.word = order_word(random),
        4 => draft.p = random.pick(&[0, 1, 4, 9, 15, 49, 121, 169, 221, 247, 249, 250, 252, 253, 255, 256, 257, 509, 65537, 99991, 99999]),
        5 => draft.n = random.pick(&[0, 5, 6, 8, 10, 40, 256, 257, 65537, 99999]),
        6 => bad_coefficient(random, &mut draft),
        7 => bad_exponent(random, &mut draft),
        8 => bad_term_order(random, &mut draft),
        9 => bad_lead(random, &mut draft),
        10 => draft = too_many(random),
        11 => draft.end = Some(bad_end(random, draft.lines.len())),
        12 => not_reduced(random, &mut draft),
        13 => not_zero_dimensional(random, &mut draft),
        14 => draft = too_many_standard_monomials(random),
        15 => draft = not_groebner(random),
        _ => {}
    }
    draft.text()
}

/// An index of a poly line and of one of its terms, if there is a line.
fn place(random: &mut Random, draft: &Draft) -> Option<(usize, usize)> {
    if draft.lines.is_empty() {
        return None;
    }
    let line = random.below(draft.lines.len());
    Some((line, random.below(draft.lines[line].len())))
}

/// A text of about 65,536 bytes: a long tail after it, one long line, or any bytes.
fn long_text(random: &mut Random, draft: &Draft) -> Vec<u8> {
    let length = match random.below(4) {
        0 => 65_536,
        1 => 65_537,
        2 => random.between(65_530, 65_540),
        _ => 65_537 + random.below(3_000),
    };
    let mut text = match random.below(3) {
        0 => draft.text(),
        1 => b"basis\tgrevlex\t2\t1\npoly".to_vec(),
        _ => Vec::new(),
    };
    let long_line = text.ends_with(b"poly");
    while text.len() < length {
        if long_line {
            text.extend_from_slice(b"\t1:5");
        } else {
            text.push(random.byte());
        }
    }
    text.truncate(length);
    if long_line && random.percent(70) {
        let end = b"\nend\t1\n";
        let keep = (length - end.len() - 22) / 4 * 4 + 22;
        text.truncate(keep);
        text.extend_from_slice(end);
        let missing = length - text.len();
        text.splice(keep..keep, b"123"[..missing].iter().copied());
    }
    text
}

/// An order word of the right form that is not grevlex.
fn order_word(random: &mut Random) -> String {
    let known = ["lex", "grlex", "deglex", "revlex", "dp", "lp", "grevle", "grevlexx", "xgrevlex", "a", "zzzzzzzz", "brevlex"];
    if random.percent(60) {
        return random.pick(&known).to_string();
    }
    (0..random.between(1, 8)).map(|_| char::from(random.pick(b"abcdefghijklmnopqrstuvwxyz"))).collect()
}

/// Sets a coefficient to 0, p or more.
fn bad_coefficient(random: &mut Random, draft: &mut Draft) {
    if let Some((line, term)) = place(random, draft) {
        draft.lines[line][term].coefficient = random.pick(&[0, 0, draft.p, draft.p + 1, 2 * draft.p, 256, 257, 99999]);
    }
}

/// Sets an exponent over 32.
fn bad_exponent(random: &mut Random, draft: &mut Draft) {
    if let Some((line, term)) = place(random, draft) {
        let variable = random.below(draft.n);
        draft.lines[line][term].exponents[variable] = random.pick(&[33, 33, 34, 64, 65, 255, 256, 257, 65535, 65536, 99999]);
    }
}

/// Swaps or doubles terms of a line.
fn bad_term_order(random: &mut Random, draft: &mut Draft) {
    let Some((line, term)) = place(random, draft) else { return };
    let terms = &mut draft.lines[line];
    let other = random.below(terms.len());
    if term == other {
        let again = Term { coefficient: random.nonzero(draft.p), exponents: terms[term].exponents.clone() };
        terms.insert(term + 1, again);
    } else {
        // The leading coefficient stays 1, so that the order is what is wrong.
        let exponents = std::mem::take(&mut terms[term].exponents);
        terms[term].exponents = std::mem::replace(&mut terms[other].exponents, exponents);
    }
}

/// Scales a line, or its leading coefficient alone.
fn bad_lead(random: &mut Random, draft: &mut Draft) {
    let Some((line, _)) = place(random, draft) else { return };
    let factor = random.nonzero(draft.p);
    let alone = random.percent(50);
    for term in &mut draft.lines[line] {
        term.coefficient = term.coefficient * factor % draft.p;
        if alone {
            break;
        }
    }
}

/// Random monomials in falling grevlex order, at most this many.
fn falling(random: &mut Random, n: usize, count: usize) -> Vec<Monomial> {
    let greatest = random.between(2, 32);
    let mut found = std::collections::BTreeSet::new();
    for _ in 0..3 * count {
        let mut monomial = Monomial::ONE;
        for exponent in &mut monomial.0[..n] {
            *exponent = random.below(greatest + 1) as u32;
        }
        found.insert(Grevlex(monomial));
    }
    found.into_iter().rev().take(count).map(|key| key.0).collect()
}

/// Lines and terms about the limits of 97 and 33.
fn too_many(random: &mut Random) -> Draft {
    let (p, n) = (prime(random), random.between(1, 4));
    let mut draft = Draft::new(p, n);
    let (many_lines, long_lines) = random.pick(&[(true, false), (true, false), (true, false), (false, true), (false, true), (true, true)]);
    let lines = if many_lines { random.between(95, 101) } else { random.between(1, 4) };
    for _ in 0..lines {
        let most = match (many_lines, long_lines) {
            (true, true) => random.between(30, 33),
            (false, true) => random.between(30, 40),
            _ => random.between(1, 3),
        };
        let monomials = falling(random, n, most);
        let terms = monomials.iter().enumerate();
        draft.lines.push(terms.map(|(i, &m)| Term::new(if i == 0 { 1 } else { random.nonzero(p) }, m, n)).collect());
    }
    if random.percent(20) {
        // A fault in one line as well: the earlier of the two counts.
        random.pick(&[bad_coefficient, bad_exponent, bad_term_order, bad_lead])(random, &mut draft);
    }
    draft
}

/// A number other than this.
fn bad_end(random: &mut Random, count: usize) -> usize {
    match random.below(4) {
        0 => count + 1,
        1 => count.saturating_sub(1),
        2 => random.below(100_000),
        _ => random.pick(&[0, 97, 98, 99, 256 + count, 65_536 + count]),
    }
}

/// Makes a line divisible by another, or a smaller monomial of one.
fn not_reduced(random: &mut Random, draft: &mut Draft) {
    let Some((line, _)) = place(random, draft) else { return };
    let (p, n) = (draft.p, draft.n);
    let lead = draft.lines[line][0].monomial();
    match random.below(4) {
        0 => draft.lines.insert(random.below(draft.lines.len() + 1), draft.lines[line].clone()),
        1 => draft.push(Monomial::ONE, Vec::new()),
        2 => {
            let factor = Monomial::variable(random.below(n));
            let multiple = draft.lines[line].iter().map(|term| Term::new(term.coefficient, term.monomial().times(factor), n));
            let multiple: Vec<Term> = multiple.collect();
            draft.lines.push(multiple);
        }
        _ => {
            // The leading monomial of one line joins the smaller terms of another.
            let other = random.below(draft.lines.len());
            let terms = &mut draft.lines[other];
            let at = terms.iter().position(|term| Grevlex(term.monomial()) < Grevlex(lead)).unwrap_or(terms.len());
            terms.insert(at, Term::new(random.nonzero(p), lead, n));
        }
    }
    if random.percent(50) {
        random.shuffle(&mut draft.lines);
    }
}

/// Takes away lines: one whose leading monomial is a power of a variable, or any.
fn not_zero_dimensional(random: &mut Random, draft: &mut Draft) {
    let variable = random.below(draft.n);
    match random.below(3) {
        0 => draft.lines.clear(),
        1 => draft.lines.retain(|line| !line[0].monomial().is_power_of(variable)),
        _ => {
            if let Some((line, _)) = place(random, draft) {
                draft.lines.remove(line);
            }
        }
    }
}

/// Bases with about 33 standard monomials or more.
fn too_many_standard_monomials(random: &mut Random) -> Draft {
    let (p, n) = (prime(random), random.between(2, 4));
    let size = random.pick(&[32, 33, 33, 33, 34, 36, 40, 48, 64, 100]);
    let mut draft = match random.below(2) {
        0 => monomial_ideal(random, p, n, size).0,
        _ => random_tails(random, p, n, size, 10),
    };
    random.shuffle(&mut draft.lines);
    draft
}

/// A basis that fails or nearly fails the test of its pairs: random terms under the leading monomials, or a valid basis with a term or two changed.
fn not_groebner(random: &mut Random) -> Draft {
    let (p, n, size) = (prime(random), random.between(2, 4), random.between(3, 16));
    let mut draft = if random.percent(40) {
        let density = random.pick(&[2, 5, 10, 30, 100]);
        random_tails(random, p, n, size, density)
    } else {
        let mut draft = vanishing(&random_algebra(random, p, n, size));
        for _ in 0..random.between(1, 2) {
            change_term(random, &mut draft);
        }
        draft
    };
    random.shuffle(&mut draft.lines);
    draft
}

/// Changes, drops or adds a smaller term of one line.
fn change_term(random: &mut Random, draft: &mut Draft) {
    let Some((line, term)) = place(random, draft) else { return };
    let p = draft.p;
    match random.below(3) {
        0 if term > 0 => drop(draft.lines[line].remove(term)),
        1 if term > 0 => draft.lines[line][term].coefficient = random.nonzero(p),
        _ => {
            // A smaller term of any line is a standard monomial, so the line stays reduced.
            let smaller: Vec<Monomial> = draft.lines.iter().flat_map(|line| line[1..].iter().map(Term::monomial)).collect();
            let terms = &mut draft.lines[line];
            let fits = |m: &Monomial| Grevlex(*m) < Grevlex(terms[0].monomial()) && terms.iter().all(|term| term.monomial() != *m);
            let choices: Vec<Monomial> = smaller.into_iter().filter(fits).collect();
            if !choices.is_empty() {
                let monomial = random.pick(&choices);
                let at = terms.iter().position(|term| Grevlex(term.monomial()) < Grevlex(monomial)).unwrap_or(terms.len());
                terms.insert(at, Term::new(random.nonzero(p), monomial, draft.n));
            }
        }
    }
}
