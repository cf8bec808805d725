//! A CALL's arguments against its extern's signature, and what a reply may write through them.
use crate::{
    layout::{lookup, word_fits, Cell, Region},
    loader::need,
    step::Write,
};
use tables::{Tables, ARGUMENT, NO_RETURN, PARAMETER};

const REPLY_ROWS: usize = 64;
const REPLY: usize = 4;

#[derive(Clone, Copy, Debug)]
pub enum Resolved {
    Vector { region: Region, mutable: bool },
    Scalar { region: Region, index: u64, mutable: bool },
    Immediate,
}

/// Refused with 6, 7 or 8.
pub fn resolve(tables: &Tables, name: u64, first: usize, count: usize) -> Result<Vec<Resolved>, u64> {
    let called = tables.externs().find(|e| e[0] == name).ok_or(6u64)?;
    let parameters = tables.parameters_of(called[2], called[3]).chunks(PARAMETER);
    let mut arguments = tables.arguments_of(first as u64, count as u64).chunks(ARGUMENT);
    let returned = usize::from(called[1] != NO_RETURN);
    need(count == parameters.len() + returned, 7)?;
    let mut resolved = Vec::new();
    if returned == 1 {
        let argument = arguments.next().expect("counted");
        resolved.push(return_fits(tables, called[1], argument));
    }
    resolved.extend(parameters.zip(arguments).map(|(p, a)| parameter_fits(tables, p, a)));
    resolved.into_iter().collect::<Option<Vec<Resolved>>>().ok_or(8)
}

/// None is one of the argument errors.
fn return_fits(tables: &Tables, kind: u64, argument: &[u64]) -> Option<Resolved> {
    match argument[0] {
        2 => None,
        _ => scalar(tables, kind, true, argument),
    }
}

fn parameter_fits(tables: &Tables, parameter: &[u64], argument: &[u64]) -> Option<Resolved> {
    let (mutable, shape, kind, length) = (parameter[1] == 1, parameter[2], parameter[3], parameter[4]);
    match (argument[0], shape) {
        // "An immediate to a mutable parameter" is refused "before its shape", and "fits any scalar kind".
        (2, 0) if !mutable => Some(Resolved::Immediate),
        (2, _) => None,
        (_, 0) => scalar(tables, kind, mutable, argument),
        // "A reference to a vector parameter is refused before lookup."
        (1, _) => None,
        _ => {
            let region = lookup(tables, argument[1])?;
            let fits = region.kind == kind && (shape == 2 || region.length == length);
            fits.then(|| Resolved::Vector { region, mutable })
        }
    }
}

/// "An identifier for a scalar, or for the return, means index 0": its third word is 0.
fn scalar(tables: &Tables, kind: u64, mutable: bool, argument: &[u64]) -> Option<Resolved> {
    let region = lookup(tables, argument[1])?;
    (region.kind == kind).then(|| Resolved::Scalar { region, index: argument[2], mutable })
}

/// 14 over all scalar references, then 17, and the reply's writes in order.
pub fn replied(resolved: &[Resolved], reply: &[u64]) -> Result<Vec<Write>, u64> {
    for argument in resolved {
        if let Resolved::Scalar { region, index, .. } = argument {
            need(*index < region.length, 14)?;
        }
    }
    need(reply.len() % REPLY == 0 && reply.len() / REPLY <= REPLY_ROWS, 17)?;
    reply.chunks(REPLY).map(|row| reply_write(resolved, row).ok_or(17)).collect()
}

/// "Each row must hit a mutable resolved argument, offset below the vector's length (0 for a scalar), with its kind
/// and a word of that kind."
fn reply_write(resolved: &[Resolved], row: &[u64]) -> Option<Write> {
    let (argument, offset, kind, word) = (usize::try_from(row[0]).ok()?, row[1], row[2], row[3]);
    let (region, place, allowed) = match *resolved.get(argument)? {
        Resolved::Vector { region, mutable } => (region, offset, mutable && offset < region.length),
        Resolved::Scalar { region, index, mutable } => (region, index, mutable && offset == 0),
        Resolved::Immediate => return None,
    };
    let fits = allowed && kind == region.kind && word_fits(kind, word);
    fits.then(|| Write { cell: region.start + place, to: Cell { kind, word } })
}
