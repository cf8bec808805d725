//! Why an argument does not resolve, under quil-rs's names.
use crate::{sizes, words, Kind, UnresolvedCallArgument, Vector};
use core::fmt;

/// What is wrong with one argument of a CALL, and whose it is.
#[derive(Clone, Copy, Debug, PartialEq)]
#[non_exhaustive]
pub enum CallArgumentError {
    /// The return's.
    Return(CallArgumentResolutionError),
    /// A parameter's.
    Argument {
        /// The parameter's index, from 0; the return is not counted.
        index: u64,
        /// What is wrong.
        error: CallArgumentResolutionError,
    },
    /// A row that this version has no case for.
    Unknown([u64; sizes::ERROR_WIDTH]),
}

/// What is wrong with an argument: 1 to 6, in quil-rs's order.
#[derive(Clone, Copy, Debug, PartialEq)]
#[non_exhaustive]
pub enum CallArgumentResolutionError {
    /// 1: no region has that name.
    UndeclaredMemoryReference(u64),
    /// 2: another vector than the fixed one that the parameter takes.
    MismatchedVector {
        /// What the parameter takes.
        expected: Vector,
        /// What the region is.
        found: Vector,
    },
    /// 3: another kind than the scalar or the variable vector that the parameter takes, or the return has.
    MismatchedScalar {
        /// What the parameter takes.
        expected: Kind,
        /// What the region is.
        found: Kind,
    },
    /// 4: that argument for a parameter that takes a vector.
    InvalidVectorArgument(UnresolvedCallArgument),
    /// 5: an immediate for the return.
    ReturnArgument {
        /// The immediate.
        found: UnresolvedCallArgument,
    },
    /// 6: an immediate for the mutable parameter of that name.
    ImmediateArgumentForMutable(u64),
    /// An error that this version has no case for.
    Unknown {
        /// Its number.
        error: u64,
        /// Its four words.
        details: [u64; 4],
    },
}

impl CallArgumentError {
    pub(crate) fn of_row(row: &[u64]) -> CallArgumentError {
        match *row {
            [0, 0, error, a, b, c, d] => CallArgumentError::Return(resolution_error(error, [a, b, c, d])),
            [1, index, error, a, b, c, d] => {
                CallArgumentError::Argument { index, error: resolution_error(error, [a, b, c, d]) }
            }
            _ => CallArgumentError::Unknown(words::row(row)),
        }
    }
}

fn resolution_error(error: u64, details: [u64; 4]) -> CallArgumentResolutionError {
    use CallArgumentResolutionError::*;
    let vector = |kind, length| Vector { kind: Kind::of_word(kind), length };
    let [a, b, c, d] = details;
    match error {
        1 => UndeclaredMemoryReference(a),
        2 => MismatchedVector { expected: vector(a, b), found: vector(c, d) },
        3 => MismatchedScalar { expected: Kind::of_word(a), found: Kind::of_word(b) },
        4 => InvalidVectorArgument(UnresolvedCallArgument::of_row([a, b, c])),
        5 => ReturnArgument { found: UnresolvedCallArgument::of_row([a, b, c]) },
        6 => ImmediateArgumentForMutable(a),
        _ => Unknown { error, details },
    }
}

impl fmt::Display for CallArgumentError {
    fn fmt(&self, f: &mut fmt::Formatter<'_>) -> fmt::Result {
        match self {
            CallArgumentError::Return(error) => write!(f, "the return: {error}"),
            CallArgumentError::Argument { index, error } => write!(f, "parameter {index}: {error}"),
            CallArgumentError::Unknown(row) => write!(f, "unknown argument error {row:?}"),
        }
    }
}

impl fmt::Display for CallArgumentResolutionError {
    fn fmt(&self, f: &mut fmt::Formatter<'_>) -> fmt::Result {
        use CallArgumentResolutionError::*;
        match self {
            UndeclaredMemoryReference(name) => write!(f, "name {name} is not declared"),
            MismatchedVector { expected, found } => write!(f, "{expected} is expected, and {found} given"),
            MismatchedScalar { expected, found } => write!(f, "{expected} is expected, and {found} given"),
            InvalidVectorArgument(argument) => write!(f, "{argument} is no vector"),
            ReturnArgument { found } => write!(f, "{found} is an immediate, and the return needs memory"),
            ImmediateArgumentForMutable(name) => {
                write!(f, "an immediate is given for the mutable parameter of name {name}")
            }
            Unknown { error, details } => write!(f, "unknown argument error {error} {details:?}"),
        }
    }
}
