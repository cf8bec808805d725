//! The tables as quil-rs's program.
use crate::{
    expression::{plain_leaf, tree},
    names::{mark, name, vector},
};
use num_complex::Complex64;
use quil_rs::{
    expression::Expression,
    instruction::{
        Arithmetic, ArithmeticOperand, ArithmeticOperator, BinaryLogic, BinaryOperand, BinaryOperator, Call,
        Comparison, ComparisonOperand, ComparisonOperator, Convert, Declaration, Exchange, FrameIdentifier,
        Instruction, Jump, JumpUnless, JumpWhen, Label, Load, MemoryReference, Move, RawCapture, SetFrequency,
        SetPhase, SetScale, ShiftFrequency, ShiftPhase, Store, SwapPhases, Target, UnaryLogic, UnaryOperator,
        UnresolvedCallArgument,
    },
    Program,
};
use std::collections::HashMap;
use tables::{Tables, ARGUMENT};

/// Operators by number. The tables count "in the Rust's order": the compiler holds each list to its enum's order.
macro_rules! operators {
    ($($list:ident: $type:ident = $($case:ident),*;)*) => {
        $(
            const $list: &[$type] = &[$($type::$case),*];
            const _: () = {
                let mut i = 0;
                while i < $list.len() {
                    assert!($list[i] as usize == i);
                    i += 1;
                }
            };
        )*
    };
}

operators! {
    ARITHMETIC: ArithmeticOperator = Add, Subtract, Divide, Multiply;
    COMPARISON: ComparisonOperator = Equal, GreaterThanOrEqual, GreaterThan, LessThanOrEqual, LessThan;
    BINARY: BinaryOperator = And, Ior, Xor, Shl, Shr, Ashr;
    UNARY: UnaryOperator = Neg, Not;
}

/// How operands are named. quil-rs's errors show an operand's name and nothing of its place, so the place is read
/// off a second run in which each occurrence of an operand has a name of its own, declared as the table's name is.
#[derive(Clone, Copy, PartialEq)]
pub enum Naming {
    Plain,
    Marked,
}

pub fn program(tables: &Tables, naming: Naming) -> Result<Program, String> {
    let mut builder =
        Builder { naming, declared: tables.regions().map(|r| (r[0], (r[1], r[2]))).collect(), program: Program::new() };
    if naming == Naming::Plain {
        for r in tables.regions() {
            builder.declare(name(r[0]), r[1], r[2]);
        }
    }
    for (row, words) in tables.instructions().enumerate() {
        let instruction = builder.instruction(tables, row, words)?;
        builder.program.add_instruction(instruction);
    }
    Ok(builder.program)
}

/// A CALL by its row's words.
pub fn call(tables: &Tables, words: &[u64]) -> Result<Call, String> {
    let arguments = tables
        .arguments_of(words[3], words[4])
        .chunks(ARGUMENT)
        .map(|a| match a[0] {
            0 => UnresolvedCallArgument::Identifier(name(a[1])),
            1 => UnresolvedCallArgument::MemoryReference(MemoryReference::new(name(a[1]), a[2])),
            _ => UnresolvedCallArgument::Immediate(Complex64::new(f64::from_bits(a[1]), f64::from_bits(a[2]))),
        })
        .collect();
    Call::try_new(name(words[2]), arguments).map_err(|error| error.to_string())
}

struct Builder {
    naming: Naming,
    declared: HashMap<u64, (u64, u64)>,
    program: Program,
}

impl Builder {
    fn declare(&mut self, name: String, kind: u64, length: u64) {
        let declaration = Declaration::new(name, vector(kind, length), None);
        self.program.add_instruction(Instruction::Declaration(declaration));
    }

    /// The name of the operand at that spot.
    fn operand(&mut self, row: usize, spot: u64, number: u64) -> String {
        if self.naming == Naming::Plain {
            return name(number);
        }
        let marked = mark(row, spot);
        if let Some(&(kind, length)) = self.declared.get(&number) {
            self.declare(marked.clone(), kind, length);
        }
        marked
    }

    fn reference(&mut self, row: usize, spot: u64, number: u64, index: u64) -> MemoryReference {
        MemoryReference::new(self.operand(row, spot, number), index)
    }

    fn source(&mut self, row: usize, words: &[u64]) -> ArithmeticOperand {
        match words[6] {
            0 => ArithmeticOperand::LiteralInteger(words[7] as i64),
            1 => ArithmeticOperand::LiteralReal(f64::from_bits(words[7])),
            _ => ArithmeticOperand::MemoryReference(self.reference(row, 3, words[7], words[8])),
        }
    }

    fn instruction(&mut self, tables: &Tables, row: usize, w: &[u64]) -> Result<Instruction, String> {
        let instruction = match w[0] {
            0 => Instruction::Arithmetic(Arithmetic {
                operator: ARITHMETIC[w[1] as usize],
                destination: self.reference(row, 1, w[2], w[3]),
                source: self.source(row, w),
            }),
            1 => Instruction::Comparison(Comparison {
                operator: COMPARISON[w[1] as usize],
                destination: self.reference(row, 1, w[2], w[3]),
                lhs: self.reference(row, 2, w[4], w[5]),
                rhs: match self.source(row, w) {
                    ArithmeticOperand::LiteralInteger(x) => ComparisonOperand::LiteralInteger(x),
                    ArithmeticOperand::LiteralReal(x) => ComparisonOperand::LiteralReal(x),
                    ArithmeticOperand::MemoryReference(x) => ComparisonOperand::MemoryReference(x),
                },
            }),
            2 => Instruction::BinaryLogic(BinaryLogic {
                operator: BINARY[w[1] as usize],
                destination: self.reference(row, 1, w[2], w[3]),
                source: match self.source(row, w) {
                    ArithmeticOperand::LiteralInteger(x) => BinaryOperand::LiteralInteger(x),
                    ArithmeticOperand::MemoryReference(x) => BinaryOperand::MemoryReference(x),
                    ArithmeticOperand::LiteralReal(_) => return Err("a real literal in binary logic".into()),
                },
            }),
            3 => Instruction::UnaryLogic(UnaryLogic {
                operator: UNARY[w[1] as usize],
                operand: self.reference(row, 1, w[2], w[3]),
            }),
            4 => {
                Instruction::Move(Move { destination: self.reference(row, 1, w[2], w[3]), source: self.source(row, w) })
            }
            5 => Instruction::Exchange(Exchange {
                left: self.reference(row, 1, w[2], w[3]),
                right: self.reference(row, 2, w[4], w[5]),
            }),
            6 => Instruction::Load(Load {
                destination: self.reference(row, 1, w[2], w[3]),
                source: self.operand(row, 2, w[4]),
                offset: self.reference(row, 3, w[7], w[8]),
            }),
            7 => Instruction::Store(Store {
                destination: self.operand(row, 1, w[2]),
                offset: self.reference(row, 2, w[4], w[5]),
                source: self.source(row, w),
            }),
            8 => self.frame(row, w[1], tables.nodes_of(w[2], w[3]))?,
            9 => Instruction::Call(call(tables, w)?),
            10 => other(row, w[1]),
            16 => self.convert(row, w),
            _ => self.flow(row, w),
        };
        Ok(instruction)
    }

    fn convert(&mut self, row: usize, w: &[u64]) -> Instruction {
        let destination = self.reference(row, 1, w[2], w[3]);
        Instruction::Convert(Convert::new(destination, self.reference(row, 3, w[7], w[8])))
    }

    /// The condition is named as any operand is, so that an answer which depended on it would show.
    fn flow(&mut self, row: usize, w: &[u64]) -> Instruction {
        let target = Target::Fixed(name(w[4]));
        let mut condition = || self.reference(row, 1, w[2], w[3]);
        match w[0] {
            11 => Instruction::Jump(Jump { target }),
            12 => Instruction::JumpWhen(JumpWhen { target, condition: condition() }),
            13 => Instruction::JumpUnless(JumpUnless { target, condition: condition() }),
            14 => Instruction::Label(Label { target }),
            _ => Instruction::Halt(),
        }
    }

    fn frame(&mut self, row: usize, operator: u64, nodes: &[u64]) -> Result<Instruction, String> {
        let expression = match self.naming {
            Naming::Plain => tree(nodes, |_, node| plain_leaf(node))?,
            Naming::Marked => {
                for (k, node) in nodes.chunks(tables::NODE).enumerate() {
                    if node[0] == 0 {
                        self.operand(row, 4 + k as u64, node[1]);
                    }
                }
                tree(nodes, |k, node| marked_leaf(row, 4 + k as u64, node))?
            }
        };
        let frame = frame_identifier(row);
        Ok(match operator {
            0 => Instruction::SetFrequency(SetFrequency::new(frame, expression)),
            1 => Instruction::SetPhase(SetPhase::new(frame, expression)),
            2 => Instruction::SetScale(SetScale::new(frame, expression)),
            3 => Instruction::ShiftFrequency(ShiftFrequency::new(frame, expression)),
            _ => Instruction::ShiftPhase(ShiftPhase::new(frame, expression)),
        })
    }
}

/// A frame instruction's frame is named after its row: the tables drop the frame.
fn frame_identifier(row: usize) -> FrameIdentifier {
    FrameIdentifier::new(row.to_string(), Vec::new())
}

/// The row of a frame instruction.
pub fn frame_row(instruction: &Instruction) -> Option<usize> {
    let frame = match instruction {
        Instruction::SetFrequency(i) => &i.frame,
        Instruction::SetPhase(i) => &i.frame,
        Instruction::SetScale(i) => &i.frame,
        Instruction::ShiftFrequency(i) => &i.frame,
        Instruction::ShiftPhase(i) => &i.frame,
        _ => return None,
    };
    frame.name.parse().ok()
}

/// A leaf that shows its spot: in its name, or as a number's real part.
fn marked_leaf(row: usize, spot: u64, node: &[u64]) -> Expression {
    match node[0] {
        0 => Expression::Address(MemoryReference::new(mark(row, spot), node[2])),
        3 => Expression::Number(Complex64::new(spot as f64, f64::from_bits(node[2]))),
        6 => Expression::Variable(mark(row, spot)),
        _ => plain_leaf(node),
    }
}

/// NOP, or one of the instructions that the tables do not tell apart: each row takes another.
fn other(row: usize, operator: u64) -> Instruction {
    let reference = || MemoryReference::new("elsewhere".to_string(), 0);
    match (operator, row % 3) {
        (0, _) => Instruction::Nop(),
        (_, 0) => Instruction::Wait(),
        (_, 1) => Instruction::SwapPhases(SwapPhases::new(frame_identifier(row), frame_identifier(row))),
        (_, _) => {
            let duration = Expression::Variable("elsewhere".to_string());
            Instruction::RawCapture(RawCapture::new(true, frame_identifier(row), duration, reference()))
        }
    }
}
