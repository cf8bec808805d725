//! A CALL's arguments, as written and as resolved.
use crate::{sizes, words, Kind, MemoryReference};
use core::fmt;

/// An argument as its row in the tables has it.
#[derive(Clone, Copy, Debug, PartialEq)]
#[non_exhaustive]
pub enum UnresolvedCallArgument {
    /// A region's name: the whole region, or its cell 0 where a scalar is asked for.
    Identifier(u64),
    /// A cell: name, index.
    Reference(u64, u64),
    /// A complex number: its real and its imaginary part.
    Immediate(f64, f64),
    /// A row that this version has no case for.
    Unknown([u64; sizes::ARGUMENT_WIDTH]),
}

/// An argument, resolved to its parameter or its extern's return.
#[derive(Clone, Copy, Debug, PartialEq)]
#[non_exhaustive]
pub enum ResolvedCallArgument {
    /// A whole region.
    Vector {
        /// The region's name.
        name: u64,
        /// Its kind and length.
        vector: Vector,
        /// Whether a reply may write it.
        mutable: bool,
    },
    /// A cell.
    MemoryReference {
        /// The region's name.
        name: u64,
        /// The cell in it, from 0.
        index: u64,
        /// Its kind.
        kind: Kind,
        /// Whether a reply may write it.
        mutable: bool,
    },
    /// A complex number, with the parameter's kind.
    Immediate {
        /// Its real part, bit for bit as given.
        real: f64,
        /// Its imaginary part, bit for bit as given.
        imaginary: f64,
        /// The parameter's kind.
        kind: Kind,
    },
    /// A row that this version has no case for.
    Unknown([u64; sizes::RESOLVED_WIDTH]),
}

/// A vector's type.
#[derive(Clone, Copy, Debug, PartialEq, Eq)]
pub struct Vector {
    /// The kind of each of its cells.
    pub kind: Kind,
    /// How many cells it has.
    pub length: u64,
}

impl UnresolvedCallArgument {
    /// Its words.
    pub fn row(self) -> [u64; sizes::ARGUMENT_WIDTH] {
        match self {
            UnresolvedCallArgument::Identifier(name) => [0, name, 0],
            UnresolvedCallArgument::Reference(name, index) => [1, name, index],
            UnresolvedCallArgument::Immediate(real, imaginary) => [2, real.to_bits(), imaginary.to_bits()],
            UnresolvedCallArgument::Unknown(row) => row,
        }
    }

    pub(crate) fn of_row(row: [u64; sizes::ARGUMENT_WIDTH]) -> UnresolvedCallArgument {
        match row {
            [0, name, 0] => UnresolvedCallArgument::Identifier(name),
            [1, name, index] => UnresolvedCallArgument::Reference(name, index),
            [2, real, imaginary] => UnresolvedCallArgument::Immediate(f64::from_bits(real), f64::from_bits(imaginary)),
            _ => UnresolvedCallArgument::Unknown(row),
        }
    }
}

impl ResolvedCallArgument {
    pub(crate) fn of_row(row: &[u64]) -> ResolvedCallArgument {
        match *row {
            [0, name, kind, length, mutable @ 0..=1] => {
                let vector = Vector { kind: Kind::of_word(kind), length };
                ResolvedCallArgument::Vector { name, vector, mutable: mutable == 1 }
            }
            [1, name, index, kind, mutable @ 0..=1] => {
                let kind = Kind::of_word(kind);
                ResolvedCallArgument::MemoryReference { name, index, kind, mutable: mutable == 1 }
            }
            [2, real, imaginary, kind, 0] => {
                let (real, imaginary) = (f64::from_bits(real), f64::from_bits(imaginary));
                ResolvedCallArgument::Immediate { real, imaginary, kind: Kind::of_word(kind) }
            }
            _ => ResolvedCallArgument::Unknown(words::row(row)),
        }
    }
}

impl From<MemoryReference> for UnresolvedCallArgument {
    fn from(MemoryReference { name, index }: MemoryReference) -> UnresolvedCallArgument {
        UnresolvedCallArgument::Reference(name, index)
    }
}

impl fmt::Display for UnresolvedCallArgument {
    fn fmt(&self, f: &mut fmt::Formatter<'_>) -> fmt::Result {
        match *self {
            UnresolvedCallArgument::Identifier(name) => write!(f, "name {name}"),
            UnresolvedCallArgument::Reference(name, index) => write!(f, "{}", MemoryReference { name, index }),
            UnresolvedCallArgument::Immediate(real, imaginary) => write!(f, "{real:?}{imaginary:+?}i"),
            UnresolvedCallArgument::Unknown(row) => write!(f, "unknown row {row:?}"),
        }
    }
}

impl fmt::Display for Vector {
    fn fmt(&self, f: &mut fmt::Formatter<'_>) -> fmt::Result {
        write!(f, "{}[{}]", self.kind, self.length)
    }
}
