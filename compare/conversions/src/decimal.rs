//! The same by decimals: Rust reads one as the nearest binary64, ties to even, and writes a binary64 of whole value digit
//! by digit. Neither goes by the casts between integers and binary64 that the plain machine uses.
use crate::ask::Direction;

pub fn agrees(direction: Direction, word: u64, given: Option<u64>) -> Result<(), String> {
    let expected = match direction {
        Direction::ToReal => (word as i64).to_string().parse().ok().map(f64::to_bits),
        // Outside, infinite and NaN are no decimals of an i64.
        Direction::ToInteger => whole_digits(f64::from_bits(word)).parse().ok().map(|integer: i64| integer as u64),
    };
    match given == expected {
        true => Ok(()),
        false => Err(format!("by decimals {}", text(expected))),
    }
}

fn whole_digits(value: f64) -> String {
    format!("{:.0}", value.trunc())
}

/// A word, or the refusal.
pub fn text(given: Option<u64>) -> String {
    given.map_or("23".to_string(), |word| format!("{word:016x}"))
}
