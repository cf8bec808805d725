//! Values: arithmetic, logic and comparison on words of a kind.
use crate::{
    layout::Cell,
    rows::{Arithmetic, Comparison, Logic},
    BIT, INTEGER, OCTET, REAL,
};
use std::cmp::Ordering;

const NAN: u64 = 0x7FF8_0000_0000_0000;

/// Bits in a word of that kind.
fn width(kind: u64) -> u32 {
    match kind {
        BIT => 1,
        OCTET => 8,
        _ => 64,
    }
}

/// The low bits that a kind keeps.
fn low_bits(kind: u64, word: u64) -> u64 {
    word & (u64::MAX >> (64 - width(kind)))
}

/// The number that a good cell, not REAL, holds.
pub fn value(cell: Cell) -> i64 {
    cell.word as i64
}

/// "A NaN result is 7FF8000000000000."
pub fn real_bits(x: f64) -> u64 {
    if x.is_nan() {
        NAN
    } else {
        x.to_bits()
    }
}

/// Two words of one kind, INTEGER or REAL; an INTEGER divisor is not 0.
pub fn arithmetic(operator: Arithmetic, kind: u64, left: u64, right: u64) -> u64 {
    if kind == REAL {
        let (x, y) = (f64::from_bits(left), f64::from_bits(right));
        return real_bits(match operator {
            Arithmetic::Add => x + y,
            Arithmetic::Sub => x - y,
            Arithmetic::Mul => x * y,
            Arithmetic::Div => x / y,
        });
    }
    match operator {
        Arithmetic::Add => left.wrapping_add(right),
        Arithmetic::Sub => left.wrapping_sub(right),
        Arithmetic::Mul => left.wrapping_mul(right),
        Arithmetic::Div => (left as i64).wrapping_div(right as i64) as u64,
    }
}

pub fn negated(kind: u64, word: u64) -> u64 {
    match kind {
        INTEGER => word.wrapping_neg(),
        _ => real_bits(-f64::from_bits(word)),
    }
}

/// "NOT: 1-v, 255-v, -1-v."
pub fn complement(kind: u64, word: u64) -> u64 {
    low_bits(kind, !word)
}

/// `right` is a source's word, or a shift count that is not negative.
pub fn logic(operator: Logic, kind: u64, left: u64, right: u64) -> u64 {
    let past = right >= u64::from(width(kind));
    let source = low_bits(kind, right);
    match operator {
        Logic::And => left & source,
        Logic::Ior => left | source,
        Logic::Xor => left ^ source,
        Logic::Shl | Logic::Shr if past => 0,
        Logic::Shl => low_bits(kind, left << right),
        Logic::Shr => left >> right,
        Logic::Ashr => {
            // The word with its top bit moved to a signed word's top bit.
            let up = 64 - width(kind);
            let signed = (left << up) as i64 >> up;
            low_bits(kind, (signed >> right.min(63)) as u64)
        }
    }
}

/// Two cells of one kind, or a good cell that is not REAL and an integer literal.
pub fn compare(operator: Comparison, left: Cell, right: Cell) -> bool {
    let order = if left.kind == REAL {
        f64::from_bits(left.word).partial_cmp(&f64::from_bits(right.word))
    } else {
        Some(value(left).cmp(&value(right)))
    };
    match (operator, order) {
        // "NaN is always 0."
        (_, None) => false,
        (Comparison::Eq, Some(order)) => order == Ordering::Equal,
        (Comparison::Ge, Some(order)) => order != Ordering::Less,
        (Comparison::Gt, Some(order)) => order == Ordering::Greater,
        (Comparison::Le, Some(order)) => order != Ordering::Greater,
        (Comparison::Lt, Some(order)) => order == Ordering::Less,
    }
}
