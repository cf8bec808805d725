//! Programs by chance: small ones, and ones at the tables' limits.
pub mod limits;
mod rows;
pub mod small;

use crate::random_numbers::Random;

/// Names that are likely to be confused: around 0, 2^63 and 2^64-1.
pub const NAMES: [u64; 10] = [0, 1, 2, 3, (1 << 63) - 1, 1 << 63, u64::MAX - 3, u64::MAX - 2, u64::MAX - 1, u64::MAX];

const EPSILON: u64 = 0x3CB0_0000_0000_0000;

/// Any word, often one at an edge.
fn word(random: &mut Random) -> u64 {
    match random.below(4) {
        0 => random.word(),
        1 => random.pick(&NAMES),
        2 => random.pick(&[EPSILON - 1, EPSILON, EPSILON + 1, f64::NAN.to_bits(), f64::INFINITY.to_bits()]),
        _ => random.below(5),
    }
}

/// Distinct names.
fn names(random: &mut Random, count: usize) -> Vec<u64> {
    let mut names: Vec<u64> = Vec::new();
    while names.len() < count {
        let name = if random.chance(60) { random.pick(&NAMES) } else { random.below(200) };
        if !names.contains(&name) {
            names.push(name);
        }
    }
    names
}
