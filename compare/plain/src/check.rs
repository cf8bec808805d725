//! The type check: the first bad row's error as six words, or a frame row's with a count. One function a family, its
//! looks in 01's order.
use crate::{
    rows::{instruction, Instruction, Source, Unary},
    BIT, INTEGER, REAL,
};
use tables::{Tables, NODE};

/// Codes of an error beside the four kinds.
const INTEGER_LITERAL: u64 = 4;
const REAL_LITERAL: u64 = 5;
const IMAGINARY: u64 = 6;
const VARIABLE: u64 = 7;
const ABSENT: u64 = 8;
const REAL_OR_INTEGRAL: u64 = 9;
const INTEGRAL: u64 = 10;
const A_BIT: u64 = 11;

/// Spots of operands; a frame's nodes are counted from the last.
const FIRST: u64 = 1;
const SECOND: u64 = 2;
const SOURCE: u64 = 3;
const NODES: u64 = 4;

/// An error without its row: kind, spot, spot of src, two codes.
type Bad = [u64; 5];
type Judged = Result<(), Bad>;

pub fn type_error(tables: &Tables) -> Option<[u64; 6]> {
    (0..tables.instructions().count()).find_map(|row| {
        let bad = judge(tables, row).err()?;
        Some(with_row(bad, row))
    })
}

/// A frame row's error, if it has one, and how many of its nodes were looked at.
pub fn frame_error(tables: &Tables, row: usize) -> (Option<[u64; 6]>, u64) {
    let w = tables.instruction(row);
    let (judged, looked) = frame(tables, tables.nodes_of(w[2], w[3]));
    (judged.err().map(|bad| with_row(bad, row)), looked)
}

fn with_row([kind, spot, src, code, other]: Bad, row: usize) -> [u64; 6] {
    [kind, row as u64, spot, src, code, other]
}

/// "Families 9 and 10 pass"; and 02, P4: the check "doesn't look at the condition", nor, P5, at a CONVERT: open does.
fn judge(t: &Tables, row: usize) -> Judged {
    match instruction(t, row) {
        Instruction::Arithmetic { destination, source, .. } => arithmetic(t, destination.name, source),
        Instruction::Comparison { destination, lhs, rhs, .. } => comparison(t, destination.name, lhs.name, rhs),
        Instruction::Logic { destination, source, .. } => logic(t, destination.name, source),
        Instruction::Unary { operator, operand } => unary(t, operator, operand.name),
        Instruction::Move { destination, source } => move_(t, destination.name, source),
        Instruction::Exchange { first, second } => exchange(t, first.name, second.name),
        Instruction::Load { destination, source, offset } => load(t, destination.name, source, offset.name),
        Instruction::Store { destination, offset, source } => store(t, destination, offset.name, source),
        Instruction::Frame { first_node, nodes } => frame(t, t.nodes_of(first_node as u64, nodes as u64)).0,
        _ => Ok(()),
    }
}

fn arithmetic(t: &Tables, destination: u64, source: Source) -> Judged {
    let dst = declared(t, destination, FIRST)?;
    literal_fits(dst, source).map_err(|src| [2, FIRST, SOURCE, dst, src])?;
    require(dst == INTEGER || dst == REAL, [4, FIRST, 0, dst, REAL_OR_INTEGRAL])?;
    if let Source::Reference(reference) = source {
        let src = declared(t, reference.name, SOURCE)?;
        require(src == INTEGER || src == REAL, [4, SOURCE, 0, src, REAL_OR_INTEGRAL])?;
        require(dst == src, [2, FIRST, SOURCE, dst, src])?;
    }
    Ok(())
}

fn comparison(t: &Tables, destination: u64, lhs: u64, rhs: Source) -> Judged {
    let dst = declared(t, destination, FIRST)?;
    let left = declared(t, lhs, SECOND)?;
    require(dst == BIT, [4, FIRST, 0, dst, A_BIT])?;
    literal_fits(left, rhs).map_err(|right| [2, SECOND, SOURCE, left, right])?;
    if let Source::Reference(reference) = rhs {
        let right = declared(t, reference.name, SOURCE)?;
        require(left == right, [2, SECOND, SOURCE, left, right])?;
    }
    Ok(())
}

fn logic(t: &Tables, destination: u64, source: Source) -> Judged {
    let dst = declared(t, destination, FIRST)?;
    require(dst != REAL, [4, FIRST, 0, dst, INTEGRAL])?;
    if let Source::Reference(reference) = source {
        let src = declared(t, reference.name, SOURCE)?;
        require(src != REAL, [4, SOURCE, 0, src, INTEGRAL])?;
    }
    Ok(())
}

fn unary(t: &Tables, operator: Unary, operand: u64) -> Judged {
    let kind = declared(t, operand, FIRST)?;
    match operator {
        Unary::Not => require(kind != REAL, [4, FIRST, 0, kind, INTEGRAL]),
        Unary::Neg => require(kind == INTEGER || kind == REAL, [4, FIRST, 0, kind, REAL_OR_INTEGRAL]),
    }
}

fn move_(t: &Tables, destination: u64, source: Source) -> Judged {
    let dst = declared(t, destination, FIRST)?;
    literal_fits(dst, source).map_err(|src| [2, FIRST, SOURCE, dst, src])?;
    if let Source::Reference(reference) = source {
        let src = declared(t, reference.name, SOURCE)?;
        require(dst == src, [2, FIRST, SOURCE, dst, src])?;
    }
    Ok(())
}

fn exchange(t: &Tables, first: u64, second: u64) -> Judged {
    let dst = declared(t, first, FIRST)?;
    let src = declared(t, second, SECOND)?;
    require(dst == src, [2, FIRST, SECOND, dst, src])
}

fn load(t: &Tables, destination: u64, source: u64, offset: u64) -> Judged {
    let dst = declared(t, destination, FIRST)?;
    let src = declared(t, source, SECOND)?;
    let index = declared(t, offset, SOURCE)?;
    require(index == INTEGER, [4, SOURCE, 0, index, INTEGRAL])?;
    require(dst == src, [2, FIRST, SECOND, dst, src])
}

fn store(t: &Tables, destination: u64, offset: u64, source: Source) -> Judged {
    let dst = declared(t, destination, FIRST)?;
    let index = declared(t, offset, SECOND)?;
    require(index == INTEGER, [4, SECOND, 0, index, INTEGRAL])?;
    literal_fits(dst, source).map_err(|src| [2, SOURCE, FIRST, src, dst])?;
    if let Source::Reference(reference) = source {
        // 02, P1: "An undeclared source is now error 1 at spot 3".
        let stored = declared(t, reference.name, SOURCE)?;
        require(dst == stored, [2, SOURCE, FIRST, stored, dst])?;
    }
    Ok(())
}

/// 02, P3: "let the frame check end at the first failure, with the error reported today, and count the nodes it looked
/// at".
fn frame(t: &Tables, nodes: &[u64]) -> (Judged, u64) {
    let mut looked = 0;
    let judged = nodes.chunks(NODE).zip(NODES..).try_for_each(|(words, spot)| {
        looked += 1;
        node(t, words, spot)
    });
    (judged, looked)
}

fn node(t: &Tables, words: &[u64], spot: u64) -> Judged {
    match words[0] {
        0 => {
            let found = declared(t, words[1], spot)?;
            require(found == REAL, [3, spot, 0, found, ABSENT])
        }
        // "Imaginary part above 2^-52 in size is 3, NaN passes."
        3 => require(!(f64::from_bits(words[2]).abs() > 2f64.powi(-52)), [3, spot, 0, IMAGINARY, ABSENT]),
        6 => Err([3, spot, 0, VARIABLE, ABSENT]),
        _ => Ok(()),
    }
}

/// The declared kind, or error 1 at that spot. The regions may have too many cells: frame does not look for 10.
fn declared(t: &Tables, name: u64, spot: u64) -> Result<u64, Bad> {
    t.regions().find(|r| r[0] == name).map(|r| r[1]).ok_or([1, spot, 0, ABSENT, ABSENT])
}

/// "Integer literal into REAL, real literal elsewhere" is the error, with the literal's code.
fn literal_fits(kind: u64, source: Source) -> Result<(), u64> {
    match source {
        Source::Integer(_) if kind == REAL => Err(INTEGER_LITERAL),
        Source::Real(_) if kind != REAL => Err(REAL_LITERAL),
        _ => Ok(()),
    }
}

fn require(holds: bool, bad: Bad) -> Judged {
    if holds {
        Ok(())
    } else {
        Err(bad)
    }
}
