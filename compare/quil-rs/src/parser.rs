//! Stand-in for the parser, which refuses everything: programs are built from tables, not from text.
use crate::{
    expression::Expression,
    instruction::{ExternSignature, FrameIdentifier, Instruction, MemoryReference},
};
use nom_locate::LocatedSpan;

#[derive(Clone, Debug, PartialEq, thiserror::Error)]
#[error("there is no lexer here")]
pub struct LexError;

#[derive(Clone, Debug, PartialEq, thiserror::Error)]
#[error("there is no parser here")]
pub struct ParseError;

pub struct Token;

pub struct NoParser;

type Parsed<'a, T> = Result<(&'a [Token], T), NoParser>;

impl ParseError {
    pub fn from_nom_internal_err(_: NoParser) -> Self {
        ParseError
    }
}

pub fn lex(_: LocatedSpan<&str>) -> Result<Vec<Token>, LexError> {
    Err(LexError)
}

pub fn parse_expression(_: &[Token]) -> Parsed<'_, Expression> {
    Err(NoParser)
}

pub fn parse_instructions(_: &[Token]) -> Parsed<'_, Vec<Instruction>> {
    Err(NoParser)
}

pub mod common {
    use super::*;

    pub fn parse_memory_reference(_: &[Token]) -> Parsed<'_, MemoryReference> {
        Err(NoParser)
    }

    pub fn parse_frame_identifier(_: &[Token]) -> Parsed<'_, FrameIdentifier> {
        Err(NoParser)
    }
}

pub mod pragma_extern {
    use super::*;

    pub fn parse_extern_signature(_: &[Token]) -> Parsed<'_, ExternSignature> {
        Err(NoParser)
    }
}
