//! Words by chance, often at an edge.
use plain::{BIT, INTEGER, OCTET};
use tables::random_numbers::Random;

const INTEGERS: [i64; 14] = [i64::MIN, i64::MIN + 1, -256, -7, -2, -1, 2, 7, 8, 63, 64, 255, 256, i64::MAX];

/// On either side of what a BIT and an OCTET hold, and far from it with low bits that they hold.
const LITERALS: [i64; 14] = [i64::MIN, i64::MIN + 1, -256, -255, -1, 0, 1, 2, 255, 256, 257, 300, 1 << 32, i64::MAX];

const REALS: [u64; 24] = [
    0,
    1 << 63,               // -0
    1,                     // the smallest
    0x3FF0_0000_0000_0000, // 1
    0xBFF8_0000_0000_0000, // -1.5
    0x3FF0_0000_0000_0001, // just above 1
    0x4340_0000_0000_0000, // 2^53
    0x7FEF_FFFF_FFFF_FFFF, // the largest
    0x0010_0000_0000_0000, // the smallest normal
    0x7FF0_0000_0000_0000, // infinite
    0xFFF0_0000_0000_0000,
    0x7FF8_0000_0000_0000, // NaN
    0xFFF8_0000_0000_0001, // other NaNs
    0x7FF0_0000_0000_0001,
    0x000F_FFFF_FFFF_FFFF, // the largest below the smallest normal
    0x3FE0_0000_0000_0000, // 1/2
    0xBFEF_FFFF_FFFF_FFFF, // just above -1
    0x432F_FFFF_FFFF_FFFF, // 2^52 - 1/2
    0x4340_0000_0000_0001, // 2^53 + 2
    0x43DF_FFFF_FFFF_FFFF, // just below 2^63
    0x43E0_0000_0000_0000, // 2^63
    0xC3E0_0000_0000_0000, // -2^63
    0xC3E0_0000_0000_0001, // just below it
    0x43F0_0000_0000_0000, // 2^64
];

pub fn integer(random: &mut Random) -> u64 {
    match random.below(8) {
        0..=4 => random.below(5),
        5 => random.below(300),
        6 => random.pick(&INTEGERS) as u64,
        _ if random.chance(50) => random.halfway(),
        _ => random.word(),
    }
}

pub fn real(random: &mut Random) -> u64 {
    match random.below(4) {
        0 => random.pick(&REALS),
        1 => ((random.below(17) as f64 - 8.0) / 2.0).to_bits(),
        2 => (random.word() as i64 as f64 / 1024.0).to_bits(),
        _ if random.chance(50) => near_an_integer(random),
        _ => random.word(),
    }
}

/// Of a size from below 1 to past 2^64, of either sign.
fn near_an_integer(random: &mut Random) -> u64 {
    let exponent = 1020 + random.below(70);
    (random.below(2) << 63) + (exponent << 52) + (random.word() >> 12)
}

/// A word that a cell of that kind can hold.
pub fn fitting(random: &mut Random, kind: u64) -> u64 {
    match kind {
        BIT => random.below(2),
        OCTET if random.chance(30) => random.pick(&[0, 1, 127, 128, 255]),
        OCTET => random.below(256),
        INTEGER => integer(random),
        _ => real(random),
    }
}

/// An integer literal for a cell of that kind, mostly one that fits.
pub fn literal(random: &mut Random, kind: u64) -> u64 {
    match kind {
        BIT | OCTET if random.chance(85) => fitting(random, kind),
        BIT | OCTET => random.pick(&LITERALS) as u64,
        _ => integer(random),
    }
}

/// A word that may or may not fit.
pub fn any(random: &mut Random) -> u64 {
    match random.below(4) {
        0 => random.below(6),
        1 => random.pick(&[2, 255, 256, 257, 1 << 63, u64::MAX]),
        2 => integer(random),
        _ => real(random),
    }
}
