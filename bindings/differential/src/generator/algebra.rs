//! Random finite-dimensional commutative algebras with a chosen element for each variable.
//!
//! The polynomials that vanish on the chosen elements are an ideal with finitely many standard monomials: points, fat points, points over larger
//! fields and products of these.

use crate::monomial::Monomial;
use crate::random::Random;

/// The action of one variable: the matrix of the multiplication by its element; column j is the image of basis vector j.
type Matrix = Vec<Vec<u32>>;

/// An algebra with an element for each variable.
pub struct Algebra {
    pub p: u32,
    pub unit: Vec<u32>,
    pub actions: Vec<Matrix>,
}

impl Algebra {
    /// A variable's element times a vector.
    pub fn times(&self, variable: usize, vector: &[u32]) -> Vec<u32> {
        let mut product = vec![0; vector.len()];
        for (column, &c) in self.actions[variable].iter().zip(vector) {
            for (sum, &entry) in product.iter_mut().zip(column) {
                *sum = (*sum + c * entry) % self.p;
            }
        }
        product
    }
}

/// One block of a product of algebras: the product of each two of its basis vectors, the first of which is its unit.
struct Block {
    products: Vec<Vec<Vec<u32>>>,
}

impl Block {
    /// Its dimension.
    fn size(&self) -> usize {
        self.products.len()
    }

    /// The polynomials in t modulo a random monic one of this degree, or modulo t^degree.
    fn one_variable(random: &mut Random, size: usize, p: u32) -> Block {
        let nilpotent = random.percent(30);
        let modulus: Vec<u32> = (0..size).map(|_| if nilpotent { 0 } else { random.residue(p) }).collect();
        let mut power = vec![0; size];
        power[0] = 1;
        let mut powers = vec![power];
        for i in 1..2 * size {
            let before = &powers[i - 1];
            let top = before[size - 1];
            let next = (0..size).map(|j| ((if j > 0 { before[j - 1] } else { 0 }) + (p - top) * modulus[j]) % p).collect();
            powers.push(next);
        }
        Block { products: (0..size).map(|i| (0..size).map(|j| powers[i + j].clone()).collect()).collect() }
    }

    /// The polynomials modulo the monomials outside a random set of this size that is closed under divisors.
    fn monomial(random: &mut Random, size: usize) -> Block {
        let standard = order_ideal(random, size, 4);
        let product = |a: Monomial, b: Monomial| {
            let place = standard.iter().position(|&monomial| monomial == a.times(b));
            (0..size).map(|k| u32::from(place == Some(k))).collect()
        };
        Block { products: standard.iter().map(|&a| standard.iter().map(|&b| product(a, b)).collect()).collect() }
    }
}

/// A random set of this many monomials in n variables that is closed under divisors, 1 first.
pub fn order_ideal(random: &mut Random, size: usize, n: usize) -> Vec<Monomial> {
    let mut found: Vec<Monomial> = Vec::new();
    let favourite = random.below(n);
    while found.len() < size {
        let next = if found.is_empty() { Monomial::ONE } else { neighbour(random, &found, n, favourite) };
        let closed = (0..n).all(|i| next.0[i] == 0 || found.contains(&next.over(Monomial::variable(i))));
        if closed && !found.contains(&next) {
            found.push(next);
        }
    }
    found
}

/// A random monomial found, times a variable, one variable being the likeliest.
fn neighbour(random: &mut Random, found: &[Monomial], n: usize, favourite: usize) -> Monomial {
    let variable = if random.percent(30) { favourite } else { random.below(n) };
    random.pick(found).times(Monomial::variable(variable))
}

/// Random blocks of this total size.
fn blocks(random: &mut Random, size: usize, p: u32) -> Vec<Block> {
    let points_only = random.percent(20);
    let mut rest = size;
    let mut blocks = Vec::new();
    while rest > 0 {
        let whole = if random.percent(25) { rest } else { random.between(1, rest) };
        let block = match random.below(3) {
            _ if points_only => Block::one_variable(random, 1, p),
            0 => Block::one_variable(random, 1, p),
            1 => Block::one_variable(random, whole, p),
            _ => Block::monomial(random, whole),
        };
        rest -= block.size();
        blocks.push(block);
    }
    blocks
}

/// A random element of a block: dense, or few coordinates next to a multiple of the unit.
fn element(random: &mut Random, size: usize, p: u32, dense: bool) -> Vec<u32> {
    if dense {
        return (0..size).map(|_| random.residue(p)).collect();
    }
    let mut element = vec![0; size];
    element[0] = random.residue(p);
    for _ in 0..random.between(1, 2) {
        let place = random.below(size);
        element[place] = random.residue(p);
    }
    element
}

/// A random algebra of this dimension with an element for each of n variables.
pub fn random_algebra(random: &mut Random, p: u32, n: usize, size: usize) -> Algebra {
    let blocks = blocks(random, size, p);
    let mut algebra = Algebra { p, unit: vec![0; size], actions: vec![vec![vec![0; size]; size]; n] };
    let dense = random.percent(60);
    let mut start = 0;
    for block in &blocks {
        algebra.unit[start] = 1;
        for action in &mut algebra.actions {
            let element = element(random, block.size(), p, dense);
            for column in 0..block.size() {
                for (factor, product) in element.iter().zip(&block.products[column]) {
                    for (k, entry) in product.iter().enumerate() {
                        let sum = &mut action[start + column][start + k];
                        *sum = (*sum + factor * entry) % p;
                    }
                }
            }
        }
        start += block.size();
    }
    algebra
}

/// The algebra of functions on this many random distinct points in n variables, or on all of the p^n points if there are fewer.
pub fn random_points(random: &mut Random, p: u32, n: usize, count: usize) -> Algebra {
    let all = (p as usize).saturating_pow(n as u32);
    let mut points: Vec<Vec<u32>> = Vec::new();
    while points.len() < count.min(all) {
        let point: Vec<u32> = (0..n).map(|_| random.residue(p)).collect();
        if !points.contains(&point) {
            points.push(point);
        }
    }
    let size = points.len();
    let diagonal = |variable: usize| (0..size).map(|i| (0..size).map(|j| if i == j { points[i][variable] } else { 0 }).collect()).collect();
    Algebra { p, unit: vec![1; size], actions: (0..n).map(diagonal).collect() }
}
