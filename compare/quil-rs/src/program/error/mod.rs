//! Stand-in for the errors of parsing beside the published syntax.rs.
mod syntax;

pub use syntax::SyntaxError;

use crate::parser::{LexError, ParseError};
use std::fmt::Debug;

#[derive(Clone, Debug, PartialEq, thiserror::Error)]
#[error("text left over")]
pub struct LeftoverError<T> {
    parsed: T,
}

impl<T> LeftoverError<T> {
    pub fn map_parsed<T2>(self, map: impl Fn(T) -> T2) -> LeftoverError<T2> {
        LeftoverError { parsed: map(self.parsed) }
    }

    pub fn recover(self) -> T {
        self.parsed
    }
}

#[derive(Clone, Debug, PartialEq, thiserror::Error)]
#[error("not parsed")]
pub struct ParseProgramError<T>(SyntaxError<T>);

impl<T, E> From<E> for ParseProgramError<T>
where
    SyntaxError<T>: From<E>,
{
    fn from(error: E) -> Self {
        ParseProgramError(error.into())
    }
}

pub fn disallow_leftover<I, T, E>(result: Result<(I, T), ParseError>) -> Result<T, E>
where
    E: From<ParseError>,
{
    Ok(result?.1)
}

pub fn map_parsed<T, T2>(
    result: Result<T, ParseProgramError<T>>,
    map: impl Fn(T) -> T2,
) -> Result<T2, ParseProgramError<T2>> {
    match result {
        Ok(parsed) => Ok(map(parsed)),
        Err(ParseProgramError(error)) => Err(ParseProgramError(error.map_parsed(map))),
    }
}

pub fn recover<T>(result: Result<T, ParseProgramError<T>>) -> Result<T, ParseProgramError<T>> {
    match result {
        Err(ParseProgramError(error)) => error.recover().map_err(ParseProgramError),
        parsed => parsed,
    }
}
