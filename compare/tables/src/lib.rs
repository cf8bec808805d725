//! A program as six tables of words, the questions asked about it and their answers. Both sides share this and
//! nothing else.
mod console;
mod frame;
pub mod options;
mod query;
pub mod random_numbers;
mod session;
mod text;

pub use console::Console;
pub use frame::FrameCheck;
pub use query::{blank, blanks, Answer, Query};
pub use session::Session;
pub use text::{quil_text, words_text};

/// Words in a row of each table.
pub const REGION: usize = 3;
pub const EXTERN: usize = 4;
pub const PARAMETER: usize = 5;
pub const NODE: usize = 3;
pub const ARGUMENT: usize = 3;
pub const INSTRUCTION: usize = 9;

/// An extern's return kind where it returns nothing.
pub const NO_RETURN: u64 = 4;

#[derive(Clone, Debug, Default, PartialEq)]
pub struct Tables {
    pub regions: Vec<u64>,
    pub externs: Vec<u64>,
    pub parameters: Vec<u64>,
    pub nodes: Vec<u64>,
    pub arguments: Vec<u64>,
    pub instructions: Vec<u64>,
}

impl Tables {
    pub fn regions(&self) -> impl Iterator<Item = &[u64]> {
        self.regions.chunks_exact(REGION)
    }

    pub fn externs(&self) -> impl Iterator<Item = &[u64]> {
        self.externs.chunks_exact(EXTERN)
    }

    pub fn instructions(&self) -> impl Iterator<Item = &[u64]> {
        self.instructions.chunks_exact(INSTRUCTION)
    }

    pub fn instruction(&self, row: usize) -> &[u64] {
        &self.instructions[row * INSTRUCTION..][..INSTRUCTION]
    }

    /// The node rows from `first` on.
    pub fn nodes_of(&self, first: u64, count: u64) -> &[u64] {
        rows_of(&self.nodes, NODE, first, count)
    }

    pub fn arguments_of(&self, first: u64, count: u64) -> &[u64] {
        rows_of(&self.arguments, ARGUMENT, first, count)
    }

    pub fn parameters_of(&self, first: u64, count: u64) -> &[u64] {
        rows_of(&self.parameters, PARAMETER, first, count)
    }

    pub fn in_order(&self) -> [(&'static str, usize, &[u64]); 6] {
        [
            ("regions", REGION, &self.regions),
            ("externs", EXTERN, &self.externs),
            ("parameters", PARAMETER, &self.parameters),
            ("nodes", NODE, &self.nodes),
            ("arguments", ARGUMENT, &self.arguments),
            ("instructions", INSTRUCTION, &self.instructions),
        ]
    }
}

fn rows_of(table: &[u64], width: usize, first: u64, count: u64) -> &[u64] {
    &table[first as usize * width..][..count as usize * width]
}
