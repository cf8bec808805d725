use crate::{
    sizes, ArithmeticOperator, BinaryOperator, ComparisonOperator, FrameOperator, MemoryReference, UnaryOperator,
};

/// An instruction, a case for each family. A region operand is its name alone.
#[derive(Clone, Copy, Debug, PartialEq)]
#[non_exhaustive]
pub enum Instruction {
    /// Family 0: `destination` becomes `destination operator source`.
    Arithmetic {
        /// What it does.
        operator: ArithmeticOperator,
        /// The left operand, which gets the result.
        destination: MemoryReference,
        /// The right operand.
        source: Source,
    },
    /// Family 1: `destination`, a BIT, becomes `lhs operator rhs`.
    Comparison {
        /// What it asks.
        operator: ComparisonOperator,
        /// What gets the answer.
        destination: MemoryReference,
        /// The left operand.
        lhs: MemoryReference,
        /// The right operand.
        rhs: Source,
    },
    /// Family 2: `destination` becomes `destination operator source`. No real literal.
    BinaryLogic {
        /// What it does.
        operator: BinaryOperator,
        /// The left operand, which gets the result.
        destination: MemoryReference,
        /// The right operand.
        source: Source,
    },
    /// Family 3: `operand` becomes `operator operand`.
    Unary {
        /// What it does.
        operator: UnaryOperator,
        /// What it is done to.
        operand: MemoryReference,
    },
    /// Family 4: `destination` becomes `source`.
    Move {
        /// What is written.
        destination: MemoryReference,
        /// What it becomes.
        source: Source,
    },
    /// Family 5: the two cells swap what they hold.
    Exchange {
        /// The one.
        left: MemoryReference,
        /// The other.
        right: MemoryReference,
    },
    /// Family 6: `destination` becomes `source[offset]`.
    Load {
        /// What is written.
        destination: MemoryReference,
        /// The region that is read.
        source: u64,
        /// The cell that has the index.
        offset: MemoryReference,
    },
    /// Family 7: `destination[offset]` becomes `source`.
    Store {
        /// The region that is written.
        destination: u64,
        /// The cell that has the index.
        offset: MemoryReference,
        /// What it becomes.
        source: Source,
    },
    /// Family 8: a frame's setting, by an expression. Its nodes are checked and not evaluated.
    Frame {
        /// Which setting.
        operator: FrameOperator,
        /// The row of the expression's first node, from 0.
        first_node: u64,
        /// How many nodes it has: exactly one tree.
        node_count: u64,
    },
    /// Family 9: a CALL of an extern routine.
    Call {
        /// The extern's.
        name: u64,
        /// The row of its first argument, from 0.
        first_argument: u64,
        /// How many arguments it has, the return's among them.
        argument_count: u64,
    },
    /// Family 10, operator 0: nothing.
    Nop,
    /// Family 10, operator 1: any other instruction. It is checked, and never stepped.
    AnyOther,
    /// Family 11: to the LABEL's row.
    Jump {
        /// Where to.
        label: u64,
    },
    /// Family 12: to the LABEL's row if the condition, a BIT, is 1.
    JumpWhen {
        /// Where to.
        label: u64,
        /// What is asked.
        condition: MemoryReference,
    },
    /// Family 13: to the LABEL's row if the condition, a BIT, is 0.
    JumpUnless {
        /// Where to.
        label: u64,
        /// What is asked.
        condition: MemoryReference,
    },
    /// Family 14: where jumps go. It does nothing.
    Label {
        /// Any number that no other LABEL has; a region or an extern may have it.
        label: u64,
    },
    /// Family 15: to the program's end.
    Halt,
    /// Family 16: `destination` becomes `source`, an INTEGER as the nearest REAL, a REAL without its fraction as an
    /// INTEGER.
    Convert {
        /// What is written: of a REAL region if the source's is INTEGER, of an INTEGER one if it is REAL.
        destination: MemoryReference,
        /// What it becomes.
        source: MemoryReference,
    },
}

/// The last operand of an instruction.
#[derive(Clone, Copy, Debug, PartialEq)]
pub enum Source {
    /// An INTEGER as it is written. MOVE and STORE take into a BIT 0 and 1, into an OCTET 0 to 255: any other there
    /// is accepted by open, and its step is refused with 24.
    IntegerLiteral(i64),
    /// A REAL as it is written.
    RealLiteral(f64),
    /// A cell.
    Reference(MemoryReference),
}

/// The words of no source.
const NO_SOURCE: [u64; 3] = [3, 0, 0];

impl Instruction {
    /// Its words.
    pub fn row(self) -> [u64; sizes::INSTRUCTION_WIDTH] {
        use Instruction::*;
        match self {
            Arithmetic { operator, destination, source } => words(0, operator.word(), one(destination), source.words()),
            Comparison { operator, destination, lhs, rhs } => {
                words(1, operator.word(), two(destination, lhs), rhs.words())
            }
            BinaryLogic { operator, destination, source } => {
                words(2, operator.word(), one(destination), source.words())
            }
            Unary { operator, operand } => words(3, operator.word(), one(operand), NO_SOURCE),
            Move { destination, source } => words(4, 0, one(destination), source.words()),
            Exchange { left, right } => words(5, 0, two(left, right), NO_SOURCE),
            Load { destination, source, offset } => {
                words(6, 0, two(destination, region(source)), Source::Reference(offset).words())
            }
            Store { destination, offset, source } => words(7, 0, two(region(destination), offset), source.words()),
            Frame { operator, first_node, node_count } => {
                words(8, operator.word(), [first_node, node_count, 0, 0], NO_SOURCE)
            }
            Call { name, first_argument, argument_count } => {
                words(9, 0, [name, first_argument, argument_count, 0], NO_SOURCE)
            }
            Nop => words(10, 0, [0; 4], NO_SOURCE),
            AnyOther => words(10, 1, [0; 4], NO_SOURCE),
            Jump { label } => words(11, 0, [0, 0, label, 0], NO_SOURCE),
            JumpWhen { label, condition } => words(12, 0, two(condition, region(label)), NO_SOURCE),
            JumpUnless { label, condition } => words(13, 0, two(condition, region(label)), NO_SOURCE),
            Label { label } => words(14, 0, [0, 0, label, 0], NO_SOURCE),
            Halt => words(15, 0, [0; 4], NO_SOURCE),
            Convert { destination, source } => words(16, 0, one(destination), Source::Reference(source).words()),
        }
    }
}

fn words(family: u64, operator: u64, operands: [u64; 4], source: [u64; 3]) -> [u64; sizes::INSTRUCTION_WIDTH] {
    let ([a, b, c, d], [form, word, other]) = (operands, source);
    [family, operator, a, b, c, d, form, word, other]
}

fn one(operand: MemoryReference) -> [u64; 4] {
    [operand.name, operand.index, 0, 0]
}

fn two(first: MemoryReference, second: MemoryReference) -> [u64; 4] {
    [first.name, first.index, second.name, second.index]
}

/// A region operand's index, and a label's, is 0.
fn region(name: u64) -> MemoryReference {
    MemoryReference { name, index: 0 }
}

impl Source {
    fn words(self) -> [u64; 3] {
        match self {
            Source::IntegerLiteral(value) => [0, value as u64, 0],
            Source::RealLiteral(value) => [1, value.to_bits(), 0],
            Source::Reference(MemoryReference { name, index }) => [2, name, index],
        }
    }
}

impl From<i64> for Source {
    fn from(value: i64) -> Source {
        Source::IntegerLiteral(value)
    }
}

impl From<f64> for Source {
    fn from(value: f64) -> Source {
        Source::RealLiteral(value)
    }
}

impl From<MemoryReference> for Source {
    fn from(reference: MemoryReference) -> Source {
        Source::Reference(reference)
    }
}
