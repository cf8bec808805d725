//! quil-rs's answers about a program in tables: tables to quil-rs's types, its own functions, its results to words,
//! in one case with the laboratory's spot in place of quil-rs's (`parting`).
//! What makes the types is public, so that the measurement runs quil-rs on the same ones.
mod call;
mod check;
pub mod expression;
mod names;
mod parting;
pub mod program;
pub mod signatures;

use tables::{Answer, Query, Tables};

/// The answer to expect, with the buffers as they should be left, or why there is none.
pub fn answer(tables: &Tables, query: Query) -> Result<Answer, String> {
    match query {
        Query::Check => check::answer(tables),
        Query::Frame { row } => check::frame(tables, row as usize),
        Query::Resolve { row, room } => call::resolve(tables, row as usize, room),
        Query::Access { row, room } => call::access(tables, row as usize, room),
        Query::References { first, count } => expression::references(tables, first, count),
    }
}
