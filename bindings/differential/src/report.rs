//! Counts of a run, and their table.

use crate::compare::{Answer, Compared, Lent};
use crate::generator::{Kind, PLAIN_KINDS};

/// How many differences are printed one by one.
const SHOWN: usize = 10;

/// The numbers of answers: 0 for acceptance and the refusals.
const NUMBERS: usize = 17;

/// What was counted. Every text counted has been compared.
pub struct Report {
    by_number: [usize; NUMBERS],
    by_kind: Vec<(Kind, Lent)>,
    differences: usize,
}

/// An answer in words.
fn words(answer: Answer) -> String {
    match answer {
        Ok(length) => format!("accepted, length {length}"),
        Err(refused) => format!("refused {} at line {}", refused.number, refused.line),
    }
}

impl Report {
    /// Nothing counted yet.
    pub fn new() -> Report {
        Report { by_number: [0; NUMBERS], by_kind: Vec::new(), differences: 0 }
    }

    /// Counts one comparison, and prints it if it is a difference.
    pub fn add(&mut self, seed: u64, index: u64, kind: Kind, compared: &Compared) {
        let number = compared.expected.map_or_else(|refused| refused.number, |_| 0);
        self.by_number[number as usize] += 1;
        self.by_kind.push((kind, compared.lent));
        if compared.same {
            return;
        }
        self.differences += 1;
        if self.differences <= SHOWN {
            let (expected, found) = (words(compared.expected), words(compared.found));
            let bytes = if expected == found { ", other bytes in the buffer" } else { "" };
            println!("text {index} ({kind:?}): expected {expected}; the library: {found}{bytes}. To see it: {seed} show {index}");
        }
    }

    /// How many texts were made and lent room in a way that the test accepts.
    fn count(&self, test: impl Fn(Kind, Lent) -> bool) -> usize {
        self.by_kind.iter().filter(|&&(kind, lent)| test(kind, lent)).count()
    }

    /// Prints how many texts of some kinds there were, and how many of these only a short buffer could refuse.
    fn print_kind(&self, name: &str, test: impl Fn(Kind) -> bool) {
        let valid = self.count(|kind, lent| test(kind) && lent != Lent::Refused);
        println!("  {name:<44}{:>8}{valid:>14}", self.count(|kind, _| test(kind)));
    }

    /// The numbers that no text had.
    fn missing(&self) -> Vec<usize> {
        (0..NUMBERS).filter(|&number| self.by_number[number] == 0).collect()
    }

    /// Whether nothing differs and every number was met.
    pub fn is_good(&self) -> bool {
        self.differences == 0 && self.missing().is_empty()
    }

    /// Prints the tables.
    pub fn print(&self, seed: u64) {
        println!("{:<46}{:>8}{:>14}", "made as", "texts", "valid bases");
        for (kind, name) in PLAIN_KINDS {
            self.print_kind(name, |k| k == kind);
        }
        self.print_kind("aimed at a refusal", |k| matches!(k, Kind::Refused(_)));
        println!("answer");
        println!("  {:<44}{:>8}", "accepted", self.by_number[0]);
        for number in 1..NUMBERS {
            println!("  {:<44}{:>8}", format!("refused {number}"), self.by_number[number]);
        }
        println!("output room");
        let rooms = [
            ("exactly the output's length", Lent::Exact),
            ("longer", Lent::Longer),
            ("one byte short", Lent::OneShort),
            ("shorter still", Lent::Shorter),
            ("any, text refused before", Lent::Refused),
        ];
        for (name, lent) in rooms {
            println!("  {name:<44}{:>8}", self.count(|_, l| l == lent));
        }
        let missing = self.missing();
        if !missing.is_empty() {
            println!("never met: {missing:?}");
        }
        println!("seed {seed}: {} texts compared, {} differences", self.by_kind.len(), self.differences);
    }
}
