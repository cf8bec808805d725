//! The rows of regions, externs, parameters and nodes.
use crate::{sizes, Kind, MemoryReference};

/// A declared region of memory.
#[derive(Clone, Copy, Debug, PartialEq, Eq)]
pub struct Region {
    /// Any number that no other region has.
    pub name: u64,
    /// The kind of each of its cells.
    pub kind: Kind,
    /// How many cells it has; 0 too.
    pub length: u64,
}

/// An extern routine's signature, over rows of the parameters' table.
#[derive(Clone, Copy, Debug, PartialEq, Eq)]
pub struct Extern {
    /// Any number that no other extern has.
    pub name: u64,
    /// What it returns, if it returns something. The return is then a CALL's first argument.
    pub return_kind: Option<Kind>,
    /// The row of its first parameter, from 0.
    pub first_parameter: u64,
    /// How many parameters it has.
    pub parameter_count: u64,
}

/// A parameter of an extern routine.
#[derive(Clone, Copy, Debug, PartialEq, Eq)]
pub struct Parameter {
    /// Any number.
    pub name: u64,
    /// Whether a reply may write it.
    pub mutable: bool,
    /// What it takes.
    pub shape: Shape,
    /// The kind that it takes.
    pub kind: Kind,
}

/// What a parameter takes.
#[derive(Clone, Copy, Debug, PartialEq, Eq)]
pub enum Shape {
    /// A cell, or an immediate where the parameter is not mutable.
    Scalar,
    /// A whole region of that length.
    FixedVector(u64),
    /// A whole region of any length.
    VariableVector,
}

/// A node of an expression. A parent stands before its children, the left one first.
#[derive(Clone, Copy, Debug, PartialEq)]
pub enum Node {
    /// A cell.
    Address(MemoryReference),
    /// A function of the next node.
    FunctionCall,
    /// An operator between the next node's tree and the one after it.
    Infix,
    /// A complex number: its real and its imaginary part.
    Number(f64, f64),
    /// The number pi.
    Pi,
    /// A sign before the next node.
    Prefix,
    /// A variable's name.
    Variable(u64),
}

/// The return kind of an extern without one.
const NO_RETURN: u64 = 4;

impl Region {
    /// Its words.
    pub const fn row(self) -> [u64; sizes::REGION_WIDTH] {
        [self.name, self.kind.word(), self.length]
    }
}

impl Extern {
    /// Its words.
    pub const fn row(self) -> [u64; sizes::EXTERN_WIDTH] {
        let return_kind = match self.return_kind {
            Some(kind) => kind.word(),
            None => NO_RETURN,
        };
        [self.name, return_kind, self.first_parameter, self.parameter_count]
    }
}

impl Parameter {
    /// Its words.
    pub const fn row(self) -> [u64; sizes::PARAMETER_WIDTH] {
        let (shape, length) = match self.shape {
            Shape::Scalar => (0, 0),
            Shape::FixedVector(length) => (1, length),
            Shape::VariableVector => (2, 0),
        };
        [self.name, self.mutable as u64, shape, self.kind.word(), length]
    }
}

impl Node {
    /// Its words.
    pub fn row(self) -> [u64; sizes::NODE_WIDTH] {
        match self {
            Node::Address(MemoryReference { name, index }) => [0, name, index],
            Node::FunctionCall => [1, 0, 0],
            Node::Infix => [2, 0, 0],
            Node::Number(real, imaginary) => [3, real.to_bits(), imaginary.to_bits()],
            Node::Pi => [4, 0, 0],
            Node::Prefix => [5, 0, 0],
            Node::Variable(name) => [6, name, 0],
        }
    }
}
