//! The seeded generator of texts.

mod algebra;
mod basis;
mod damaged;
mod draft;
mod refused;

use crate::random::Random;
use draft::Draft;

/// What a text was made as. What it turns out to be is the converters' to say.
#[derive(Clone, Copy, Debug, PartialEq, Eq)]
pub enum Kind {
    Points,
    Algebra,
    Monomial,
    Refused(u64),
    Damaged,
}

/// The output room that a text asks for.
#[derive(Clone, Copy, Debug, PartialEq, Eq)]
pub enum Room {
    Any,
    Short,
}

/// A generated text.
pub struct Text {
    pub kind: Kind,
    pub bytes: Vec<u8>,
    pub room: Room,
}

/// The kinds that are not aimed at a refusal, for the table.
pub const PLAIN_KINDS: [(Kind, &str); 4] = [
    (Kind::Points, "random points"),
    (Kind::Algebra, "multiple points, larger fields, products"),
    (Kind::Monomial, "monomial ideals"),
    (Kind::Damaged, "damaged texts"),
];

/// A prime from 2 to 251, small ones more often.
fn prime(random: &mut Random) -> u32 {
    const SMALL: [u32; 4] = [2, 3, 5, 7];
    const ALL: [u32; 54] = [
        2, 3, 5, 7, 11, 13, 17, 19, 23, 29, 31, 37, 41, 43, 47, 53, 59, 61, 67, 71, 73, 79, 83, 89, 97, 101, 103, 107, 109, 113, 127, 131,
        137, 139, 149, 151, 157, 163, 167, 173, 179, 181, 191, 193, 197, 199, 211, 223, 227, 229, 233, 239, 241, 251,
    ];
    match random.below(100) {
        0..=49 => random.pick(&SMALL),
        50..=59 => 251,
        _ => random.pick(&ALL),
    }
}

/// How many standard monomials a basis should have, small numbers more often, 32 at most.
fn size(random: &mut Random) -> usize {
    match random.below(100) {
        0..=54 => random.between(0, 6),
        55..=84 => random.between(7, 14),
        85..=96 => random.between(15, 31),
        _ => 32,
    }
}

/// A valid basis of this kind, its lines in random order.
fn valid(random: &mut Random, kind: Kind) -> Draft {
    let (p, n, size) = (prime(random), random.between(1, 4), size(random));
    let mut draft = match kind {
        Kind::Points => basis::vanishing(&algebra::random_points(random, p, n, size)),
        Kind::Monomial => basis::monomial_ideal(random, p, n, size).0,
        _ => basis::vanishing(&algebra::random_algebra(random, p, n, size)),
    };
    random.shuffle(&mut draft.lines);
    draft
}

/// A valid basis of any kind.
fn any_valid(random: &mut Random) -> Draft {
    let kind = random.pick(&[Kind::Points, Kind::Points, Kind::Algebra, Kind::Algebra, Kind::Monomial]);
    valid(random, kind)
}

/// The text with this index in the run with this seed.
pub fn text(random: &mut Random) -> Text {
    let kind = match random.below(1000) {
        0..=169 => Kind::Points,
        170..=359 => Kind::Algebra,
        360..=409 => Kind::Monomial,
        410..=589 => Kind::Damaged,
        590..=593 => Kind::Refused(1),
        594..=619 => Kind::Refused(16),
        620..=679 => Kind::Refused(15),
        _ => Kind::Refused(random.between(2, 15) as u64),
    };
    let bytes = match kind {
        Kind::Damaged => damaged::text(random),
        Kind::Refused(number) => refused::text(random, number),
        _ => valid(random, kind).text(),
    };
    let room = if kind == Kind::Refused(16) { Room::Short } else { Room::Any };
    Text { kind, bytes, room }
}
