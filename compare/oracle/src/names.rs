//! Names and kinds: numbers to quil-rs's strings and types, and back.
use quil_rs::instruction::{ScalarType, Vector};

/// The identifier of a name.
pub fn name(number: u64) -> String {
    format!("n{number}")
}

pub fn number(name: &str) -> Result<u64, String> {
    name.strip_prefix('n')
        .and_then(|digits| digits.parse().ok())
        .ok_or_else(|| format!("{name} is no name that was given"))
}

/// The identifier of one operand's occurrence: row, then spot.
pub fn mark(row: usize, spot: u64) -> String {
    format!("r{row}s{spot}")
}

/// The row and spot in a text that shows a marked operand, quoted or bare.
pub fn marked(text: &str) -> Option<(usize, u64)> {
    text.split('"').find_map(|part| {
        let (row, spot) = part.strip_prefix('r')?.split_once('s')?;
        Some((row.parse().ok()?, spot.parse().ok()?))
    })
}

pub fn scalar(kind: u64) -> ScalarType {
    match kind {
        0 => ScalarType::Bit,
        1 => ScalarType::Integer,
        2 => ScalarType::Octet,
        _ => ScalarType::Real,
    }
}

pub fn kind(scalar: ScalarType) -> u64 {
    match scalar {
        ScalarType::Bit => 0,
        ScalarType::Integer => 1,
        ScalarType::Octet => 2,
        ScalarType::Real => 3,
    }
}

pub fn vector(kind: u64, length: u64) -> Vector {
    Vector::new(scalar(kind), length)
}
