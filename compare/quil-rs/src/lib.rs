//! quil-rs's own files for the kept answers, unchanged, among stand-ins for the files that are not published.
//! The README beside this crate says which file is whose.
#![allow(dead_code, unexpected_cfgs, unknown_lints, unused_doc_comments, unused_imports, unused_variables)]

#[macro_use]
mod macros;

pub mod expression;
pub mod floating_point_eq;
pub mod instruction;
pub mod parser;
pub mod program;
pub mod quil;
pub mod reserved;
pub mod validation {
    pub mod identifier;
}

pub use program::Program;
