//! A CALL's resolved arguments or errors, and its access sets.
use crate::{
    names::{kind, number},
    program::{call, program, Naming},
    signatures::signatures,
};
use quil_rs::instruction::{
    CallArgumentError, CallArgumentResolutionError, CallResolutionError, CallSignatureError, ResolvedCallArgument,
    UnresolvedCallArgument,
};
use tables::{Answer, Tables};

const EXTERN_NOT_FOUND: u64 = 6;
const ARGUMENT_COUNT: u64 = 7;
const ARGUMENT_ERRORS: u64 = 8;

pub fn resolve(tables: &Tables, row: usize, room: usize) -> Result<Answer, String> {
    // The regions alone: the other rows have no say.
    let declarations = Tables { regions: tables.regions.clone(), ..Tables::default() };
    let regions = program(&declarations, Naming::Plain)?.memory_regions;
    let result = call(tables, tables.instruction(row))?.resolve_arguments(&regions, &signatures(tables)?);
    match result {
        Ok(arguments) => rows(0, room, arguments.iter().map(resolved_row)),
        Err(CallResolutionError::NoMatchingExternInstruction(_)) => Ok(Answer::untouched(EXTERN_NOT_FOUND, 1, &[room])),
        Err(CallResolutionError::Signature { error, .. }) => match error {
            CallSignatureError::ParameterCount { .. } => Ok(Answer::untouched(ARGUMENT_COUNT, 1, &[room])),
            CallSignatureError::Arguments(errors) => rows(ARGUMENT_ERRORS, room, errors.iter().map(error_row)),
        },
        Err(error) => Err(error.to_string()),
    }
}

pub fn access(tables: &Tables, row: usize, room: [usize; 2]) -> Result<Answer, String> {
    let accesses = match call(tables, tables.instruction(row))?.accesses(&signatures(tables)?) {
        Ok(accesses) => accesses,
        Err(CallResolutionError::NoMatchingExternInstruction(_)) => {
            return Ok(Answer::untouched(EXTERN_NOT_FOUND, 2, &room));
        }
        Err(error) => return Err(error.to_string()),
    };
    if !accesses.captures.is_empty() {
        return Err("a CALL that captures".to_string());
    }
    let mut answer = Answer::untouched(0, 2, &room);
    for (i, set) in [accesses.reads, accesses.writes].iter().enumerate() {
        let mut names = set.iter().map(|name| number(name)).collect::<Result<Vec<_>, _>>()?;
        names.sort_unstable();
        answer.out[i] = names.len() as u64;
        answer.lent[i][..names.len()].copy_from_slice(&names);
    }
    Ok(answer)
}

/// The rows one after another from the buffer's first word, and their count.
fn rows<R>(number: u64, room: usize, rows: impl Iterator<Item = Result<R, String>>) -> Result<Answer, String>
where
    R: AsRef<[u64]>,
{
    let mut answer = Answer::untouched(number, 1, &[room]);
    let mut place = 0;
    answer.out[0] = 0;
    for row in rows {
        let row = row?;
        let words = row.as_ref();
        answer.lent[0][place..place + words.len()].copy_from_slice(words);
        place += words.len();
        answer.out[0] += 1;
    }
    Ok(answer)
}

fn resolved_row(argument: &ResolvedCallArgument) -> Result<[u64; 5], String> {
    Ok(match argument {
        ResolvedCallArgument::Vector { memory_region_name, vector, mutable } => {
            [0, number(memory_region_name)?, kind(vector.data_type), vector.length, u64::from(*mutable)]
        }
        ResolvedCallArgument::MemoryReference { memory_reference, scalar_type, mutable } => {
            [1, number(&memory_reference.name)?, memory_reference.index, kind(*scalar_type), u64::from(*mutable)]
        }
        ResolvedCallArgument::Immediate { value, scalar_type } => {
            [2, value.re.to_bits(), value.im.to_bits(), kind(*scalar_type), 0]
        }
    })
}

fn error_row(error: &CallArgumentError) -> Result<[u64; 7], String> {
    let (parameter, index, error) = match error {
        CallArgumentError::Return(error) => (0, 0, error),
        CallArgumentError::Argument { index, error } => (1, *index as u64, error),
    };
    let (case, details) = match error {
        CallArgumentResolutionError::UndeclaredMemoryReference(name) => (1, [number(name)?, 0, 0, 0]),
        CallArgumentResolutionError::MismatchedVector { expected, found } => {
            (2, [kind(expected.data_type), expected.length, kind(found.data_type), found.length])
        }
        CallArgumentResolutionError::MismatchedScalar { expected, found } => (3, [kind(*expected), kind(*found), 0, 0]),
        CallArgumentResolutionError::InvalidVectorArgument(argument) => (4, argument_words(argument)?),
        CallArgumentResolutionError::ReturnArgument { found } => (5, argument_words(found)?),
        CallArgumentResolutionError::ImmediateArgumentForMutable(name) => (6, [number(name)?, 0, 0, 0]),
    };
    let [a, b, c, d] = details;
    Ok([parameter, index, case, a, b, c, d])
}

fn argument_words(argument: &UnresolvedCallArgument) -> Result<[u64; 4], String> {
    Ok(match argument {
        UnresolvedCallArgument::Identifier(name) => [0, number(name)?, 0, 0],
        UnresolvedCallArgument::MemoryReference(reference) => [1, number(&reference.name)?, reference.index, 0],
        UnresolvedCallArgument::Immediate(value) => [2, value.re.to_bits(), value.im.to_bits(), 0],
    })
}
