//! CONVERT stepped both ways: its values at their edges, 23, and that it is one change.
mod bench;

use bench::*;
use mugwortlatch::{Cell, Instruction, Kind, Ran, Refusal, Stop};

/// The cell that a literal becomes, by a MOVE and a CONVERT; taken back it is what it was.
fn real(value: i64) -> Result<u64, Refusal> {
    let rows = [mov(at(N, 2), value), convert(at(R, 1), at(N, 2))];
    let Cell { kind, word } = converted(&rows, at(R, 1))?;
    assert_eq!(kind, Kind::Real);
    Ok(word)
}

fn integer(value: f64) -> Result<i64, Refusal> {
    let rows = [mov(at(R, 1), value), convert(at(N, 2), at(R, 1))];
    let Cell { kind, word } = converted(&rows, at(N, 2))?;
    assert_eq!(kind, Kind::Integer);
    Ok(word as i64)
}

fn converted(rows: &[Row; 2], to: mugwortlatch::MemoryReference) -> Result<Cell, Refusal> {
    session(bench(rows), 4, |session| {
        steps(session, 1);
        let before = (session.memory().to_vec(), position(session));
        session.forward(&[])?;
        let (cell, after) = (session.cell(to).unwrap(), position(session));
        assert_eq!(after, (2, 2, 4));
        session.back()?;
        assert_eq!((session.memory().to_vec(), position(session)), before);
        Ok(cell)
    })?
}

/// Ties to even.
#[test]
fn integers_to_reals() {
    let two_to_53 = 1i64 << 53;
    for (value, bits) in [
        (0, 0),
        (1, 0x3FF0_0000_0000_0000),
        (two_to_53 + 1, 0x4340_0000_0000_0000),
        (two_to_53 + 2, 0x4340_0000_0000_0001),
        (two_to_53 + 3, 0x4340_0000_0000_0002),
        (i64::MAX, 0x43E0_0000_0000_0000),
    ] {
        assert_eq!(real(value), Ok(bits));
        assert_eq!(real(-value), Ok(bits | if value == 0 { 0 } else { 1 << 63 }));
    }
    assert_eq!(real(i64::MIN), Ok(0xC3E0_0000_0000_0000));
}

#[test]
fn reals_to_integers() {
    let below = f64::from_bits(0x43DF_FFFF_FFFF_FFFF);
    for (value, whole) in [(-0.0, 0), (-0.9, 0), (0.5, 0), (2.5, 2), (-2.5, -2), (1e15, 10i64.pow(15)), (5e-324, 0)] {
        assert_eq!(integer(value), Ok(whole), "{value}");
    }
    assert_eq!((integer(below), integer(-below)), (Ok(i64::MAX - 1023), Ok(1023 - i64::MAX)));
    assert_eq!(integer(-9_223_372_036_854_775_808.0), Ok(i64::MIN));
}

#[test]
fn outside() {
    let past = f64::from_bits(0xC3E0_0000_0000_0001);
    for value in [9_223_372_036_854_775_808.0, past, 1e300, f64::INFINITY, f64::NEG_INFINITY, f64::NAN, -f64::NAN] {
        assert_eq!(integer(value), Err(Refusal::OutsideInteger), "{value}");
    }
}

/// A run stops at 23 and keeps the steps before it.
#[test]
fn a_run_stops_at_23() {
    let rows = [mov(at(R, 0), f64::NAN), convert(at(N, 0), at(R, 0)), Instruction::Nop.row()];
    let Ran { steps, stop, .. } = session(bench(&rows), 9, |session| session.run(9)).unwrap().unwrap();
    assert_eq!((steps, stop), (1, Stop::Refusal(Refusal::OutsideInteger)));
}
