//! CONVERT between INTEGER and REAL.
use crate::{
    layout::{lookup, Cell},
    loader::need,
    rows::{all, Instruction, Reference},
    INTEGER, REAL,
};
use tables::Tables;

/// 2^63: a binary64 value, as 2^63 - 1 is not.
const PAST_INTEGERS: f64 = 9_223_372_036_854_775_808.0;

/// No "another pair of kinds or an undeclared name".
pub fn conversions_fit(tables: &Tables) -> bool {
    let kind = |at: Reference| lookup(tables, at.name).map(|region| region.kind);
    all(tables).all(|row| match row {
        Instruction::Convert { destination, source } => {
            matches!((kind(destination), kind(source)), (Some(REAL), Some(INTEGER)) | (Some(INTEGER), Some(REAL)))
        }
        _ => true,
    })
}

/// What the destination gets of a good cell, whose "kind picks the direction; BIT or OCTET there has no rule".
pub fn converted(source: Cell) -> Result<Cell, u64> {
    match source.kind {
        // "The nearest binary64, ties to even": what Rust says of this cast.
        INTEGER => Ok(Cell { kind: REAL, word: (source.word as i64 as f64).to_bits() }),
        REAL => Ok(Cell { kind: INTEGER, word: whole(f64::from_bits(source.word))? as u64 }),
        _ => Err(18),
    }
}

/// "REAL to INTEGER drops the fraction"; 23 for "a NaN, an infinity or a value outside -2^63 to 2^63-1" then.
fn whole(value: f64) -> Result<i64, u64> {
    need(value.is_finite(), 23)?;
    let whole = value.trunc();
    need((-PAST_INTEGERS..PAST_INTEGERS).contains(&whole), 23)?;
    Ok(whole as i64)
}
