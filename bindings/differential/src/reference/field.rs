//! Arithmetic modulo a small prime p.

/// The reciprocal of a, 1 to p - 1, by trying each residue.
pub fn reciprocal(a: u32, p: u32) -> u32 {
    (1..p).find(|b| a * b % p == 1).expect("a residue from 1 to p - 1 has a reciprocal")
}

/// The negative of a.
pub fn negative(a: u32, p: u32) -> u32 {
    (p - a) % p
}

/// Whether p is a prime, by trial division.
pub fn is_prime(p: u32) -> bool {
    p >= 2 && (2..p).all(|d| p / d * d != p)
}
