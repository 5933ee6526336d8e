//! One comparison: the library against the reference, in number, line, length and every byte.

use crate::generator::Room;
use crate::random::Random;
use crate::reference::{self, Refused};

/// Bytes before and after the lent buffer that must stay as they are.
const GUARD: usize = 64;

/// What a converter answered: the length written, or the number and line of a refusal.
pub type Answer = Result<usize, Refused>;

/// The output room of a comparison, against the length of the output.
#[derive(Clone, Copy, Debug, PartialEq, Eq)]
pub enum Lent {
    Exact,
    OneShort,
    Shorter,
    Longer,
    Refused,
}

/// The outcome of a comparison.
pub struct Compared {
    /// What the reference answered.
    pub expected: Answer,
    /// What the library answered.
    pub found: Answer,
    /// Whether the answers and every byte are the same.
    pub same: bool,
    /// The room that was lent.
    pub lent: Lent,
}

/// The room to lend for an output of this length.
fn room_for(random: &mut Random, length: usize, room: Room) -> usize {
    let short = room == Room::Short || random.percent(4);
    match random.below(10) {
        0..=4 if short => length - 1,
        5 if short => 0,
        _ if short => random.below(length),
        0..=4 => length,
        5 => 65_536,
        6 => length + random.below(4_000),
        _ => length + random.between(1, 20),
    }
}

/// The library's answer.
fn library(input: &[u8], output: &mut [u8]) -> Answer {
    juirkes::convert(input, output).map_err(|refused| Refused { number: refused.refusal.number(), line: refused.line })
}

/// Lends both converters equal buffers of random bytes and compares all they leave.
pub fn compare(random: &mut Random, text: &[u8], room: Room) -> Compared {
    let outcome = reference::convert(text);
    let room = match &outcome {
        Ok(output) => room_for(random, output.len(), room),
        Err(_) => random.pick(&[0, 1, 2, 60, 100, 300, 2_000]),
    };
    let mut found_bytes: Vec<u8> = (0..room + 2 * GUARD).map(|_| random.byte()).collect();
    let mut expected_bytes = found_bytes.clone();
    let (expected, lent) = match outcome {
        Err(refused) => (Err(refused), Lent::Refused),
        Ok(output) if output.len() > room => {
            let lent = if output.len() == room + 1 { Lent::OneShort } else { Lent::Shorter };
            (Err(Refused { number: 16, line: 0 }), lent)
        }
        Ok(output) => {
            expected_bytes[GUARD..GUARD + output.len()].copy_from_slice(&output);
            let lent = if output.len() == room { Lent::Exact } else { Lent::Longer };
            (Ok(output.len()), lent)
        }
    };
    let found = library(text, &mut found_bytes[GUARD..GUARD + room]);
    Compared { expected, found, same: expected == found && expected_bytes == found_bytes, lent }
}
