//! Words to convert: at every edge, and by chance of every size.
use crate::ask::Direction;
use tables::random_numbers::Random;

const FRACTION: u64 = (1 << 52) - 1;
const SIGN: u64 = 1 << 63;

pub fn edges(direction: Direction) -> Vec<u64> {
    match direction {
        Direction::ToReal => integers(),
        Direction::ToInteger => reals(),
    }
}

pub fn by_chance(random: &mut Random, direction: Direction) -> u64 {
    match direction {
        Direction::ToReal => integer(random),
        Direction::ToInteger => real(random),
    }
}

/// Around each power of two, its halves and the middles beside it, and their negatives.
fn integers() -> Vec<u64> {
    let mut integers = vec![0];
    for top in 0..64 {
        let power = 1u64 << top;
        let last = power >> 52;
        for from in [power, power | power >> 1, power.wrapping_mul(2).wrapping_sub(last)] {
            for step in [0, last / 2, last, last + last / 2] {
                let at = from.wrapping_add(step);
                integers.extend([at.wrapping_sub(2), at.wrapping_sub(1), at, at.wrapping_add(1), at.wrapping_add(2)]);
            }
        }
    }
    let negatives: Vec<u64> = integers.iter().map(|integer| integer.wrapping_neg()).collect();
    [integers, negatives].concat()
}

/// Of each exponent, subnormals, infinities and NaNs too, the first and last fractions and the middle, of either sign.
fn reals() -> Vec<u64> {
    let fractions = [0, 1, 1 << 51, FRACTION - 1, FRACTION];
    let sizes = (0..2048).flat_map(|exponent| fractions.map(|fraction| exponent << 52 | fraction));
    sizes.flat_map(|size| [size, SIGN | size]).collect()
}

fn integer(random: &mut Random) -> u64 {
    let word = match random.below(6) {
        0 => random.word(),
        1..=2 => random.word() >> random.below(64),
        3 => (1u64 << random.below(64)).wrapping_add(random.below(9)).wrapping_sub(4),
        _ => random.halfway(),
    };
    random.pick(&[word, word.wrapping_neg()])
}

fn real(random: &mut Random) -> u64 {
    let size = match random.below(6) {
        0 => random.word() & !SIGN,
        // From below 1 to past 2^64.
        1..=2 => (1020 + random.below(70)) << 52 | fraction(random),
        // Around the ends of the range.
        3 => ((1085 + random.below(3)) << 52) + random.below(9) - 4,
        4 => half(random),
        _ => random.pick(&[0, 1, 1022, 1023, 2046, 2047]) << 52 | fraction(random),
    };
    random.below(2) << 63 | size
}

/// Any, or digits that end early.
fn fraction(random: &mut Random) -> u64 {
    let (any, cut) = (random.word() & FRACTION, random.below(52));
    random.pick(&[any, any, any >> cut, FRACTION & any << cut])
}

/// A whole number or one and a half, of any size, or the binary64 beside it.
fn half(random: &mut Random) -> u64 {
    let halves = random.word() >> (11 + random.below(53));
    (halves as f64 / 2.0).to_bits().saturating_add(random.below(3)).saturating_sub(1)
}
