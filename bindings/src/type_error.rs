use core::fmt;

/// The first type error of a program, or of one frame.
#[derive(Clone, Copy, Debug, PartialEq, Eq)]
#[non_exhaustive]
pub struct TypeError {
    /// What is wrong.
    pub kind: TypeErrorKind,
    /// The instruction's row, from 0.
    pub row: u64,
    /// The named operand's.
    pub spot: Spot,
    /// The other operand's, where the error has one.
    pub src_spot: Option<Spot>,
}

/// What is wrong: 1 to 4.
#[derive(Clone, Copy, Debug, PartialEq, Eq)]
#[non_exhaustive]
pub enum TypeErrorKind {
    /// 1: the operand is not declared.
    Undefined,
    /// 2: the two operands do not go together.
    DataType {
        /// What the operand at `spot` is.
        dst: Code,
        /// What the operand at `src_spot` is.
        src: Code,
    },
    /// 3: a frame's expression needs a real value.
    RealRequired {
        /// What the node is.
        found: Code,
    },
    /// 4: the operator does not take the operand.
    Operand {
        /// What the operand is.
        found: Code,
        /// What the operator takes.
        required: Code,
    },
    /// An error that this version has no case for.
    Unknown {
        /// Its number.
        kind: u64,
        /// Its first code.
        first_code: Code,
        /// Its second code.
        second_code: Code,
    },
}

/// Where an operand stands: in its row, or in a frame's tree.
#[derive(Clone, Copy, Debug, PartialEq, Eq)]
#[non_exhaustive]
pub enum Spot {
    /// 1: the first operand.
    First,
    /// 2: the second operand.
    Second,
    /// 3: the source.
    Source,
    /// From 4 on: the node's place in its tree, from 0.
    Node(u64),
    /// A word that this version has no case for.
    Unknown(u64),
}

coded! {
    /// What an operand is, or what is required of it.
    Code {
        0 Bit "BIT",
        1 Integer "INTEGER",
        2 Octet "OCTET",
        3 Real "REAL",
        4 IntegerLiteral "an integer literal",
        5 RealLiteral "a real literal",
        6 Imaginary "an imaginary number",
        7 Variable "a variable",
        8 Absent "absent",
        9 RealOrIntegral "REAL or INTEGER",
        10 Integral "BIT, INTEGER or OCTET",
        11 BitOnly "BIT",
    }
}

impl TypeError {
    /// The error of the library's six words: kind, row, spot, src spot, two codes.
    pub(crate) const fn of_words([kind, row, spot, src_spot, first, second]: [u64; 6]) -> TypeError {
        let (first_code, second_code) = (Code::of_word(first), Code::of_word(second));
        let kind = match kind {
            1 => TypeErrorKind::Undefined,
            2 => TypeErrorKind::DataType { dst: first_code, src: second_code },
            3 => TypeErrorKind::RealRequired { found: first_code },
            4 => TypeErrorKind::Operand { found: first_code, required: second_code },
            _ => TypeErrorKind::Unknown { kind, first_code, second_code },
        };
        let src_spot = match src_spot {
            0 => None,
            _ => Some(Spot::of_word(src_spot)),
        };
        TypeError { kind, row, spot: Spot::of_word(spot), src_spot }
    }
}

impl TypeErrorKind {
    /// Its number.
    pub const fn number(self) -> u64 {
        match self {
            TypeErrorKind::Undefined => 1,
            TypeErrorKind::DataType { .. } => 2,
            TypeErrorKind::RealRequired { .. } => 3,
            TypeErrorKind::Operand { .. } => 4,
            TypeErrorKind::Unknown { kind, .. } => kind,
        }
    }
}

impl Spot {
    const fn of_word(word: u64) -> Spot {
        match word {
            0 => Spot::Unknown(word),
            1 => Spot::First,
            2 => Spot::Second,
            3 => Spot::Source,
            _ => Spot::Node(word - 4),
        }
    }
}

impl fmt::Display for TypeError {
    fn fmt(&self, f: &mut fmt::Formatter<'_>) -> fmt::Result {
        write!(f, "type error {} in row {}: {}", self.kind.number(), self.row, self.spot)?;
        match self.kind {
            TypeErrorKind::Undefined => f.write_str(" is not declared"),
            TypeErrorKind::DataType { dst, src } => match self.src_spot {
                Some(spot) => write!(f, " is {dst}, {spot} is {src}"),
                None => write!(f, " is {dst}, the other operand is {src}"),
            },
            TypeErrorKind::RealRequired { found } => write!(f, " is {found}, where a real value is required"),
            TypeErrorKind::Operand { found, required } => write!(f, " is {found}, where {required} is required"),
            TypeErrorKind::Unknown { first_code, second_code, .. } => write!(f, ": {first_code}, {second_code}"),
        }
    }
}

impl fmt::Display for Spot {
    fn fmt(&self, f: &mut fmt::Formatter<'_>) -> fmt::Result {
        match self {
            Spot::First => f.write_str("the first operand"),
            Spot::Second => f.write_str("the second operand"),
            Spot::Source => f.write_str("the source"),
            Spot::Node(place) => write!(f, "node {place} of the expression"),
            Spot::Unknown(word) => write!(f, "unknown spot {word}"),
        }
    }
}
