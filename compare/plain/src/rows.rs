//! An instruction row as the rules speak of it. The loader has looked at its words.
use tables::Tables;

#[derive(Clone, Copy, Debug, PartialEq)]
pub struct Reference {
    pub name: u64,
    pub index: u64,
}

#[derive(Clone, Copy)]
pub enum Source {
    Integer(u64),
    Real(u64),
    Reference(Reference),
}

#[derive(Clone, Copy, PartialEq)]
pub enum Arithmetic {
    Add,
    Sub,
    Div,
    Mul,
}

#[derive(Clone, Copy)]
pub enum Comparison {
    Eq,
    Ge,
    Gt,
    Le,
    Lt,
}

#[derive(Clone, Copy)]
pub enum Logic {
    And,
    Ior,
    Xor,
    Shl,
    Shr,
    Ashr,
}

#[derive(Clone, Copy)]
pub enum Unary {
    Neg,
    Not,
}

/// LOAD's source and STORE's destination are a region's name.
#[derive(Clone, Copy)]
pub enum Instruction {
    Arithmetic { operator: Arithmetic, destination: Reference, source: Source },
    Comparison { operator: Comparison, destination: Reference, lhs: Reference, rhs: Source },
    Logic { operator: Logic, destination: Reference, source: Source },
    Unary { operator: Unary, operand: Reference },
    Move { destination: Reference, source: Source },
    Exchange { first: Reference, second: Reference },
    Load { destination: Reference, source: u64, offset: Reference },
    Store { destination: u64, offset: Reference, source: Source },
    Frame { first_node: usize, nodes: usize },
    Call { name: u64, first_argument: usize, arguments: usize },
    Nop,
    Other,
    Jump { label: u64 },
    JumpWhen { condition: Reference, label: u64 },
    JumpUnless { condition: Reference, label: u64 },
    Label { label: u64 },
    Halt,
    Convert { destination: Reference, source: Reference },
}

/// Row `row` of loaded tables.
pub fn instruction(tables: &Tables, row: usize) -> Instruction {
    use {Arithmetic::*, Comparison::*, Logic::*, Unary::*};
    let w = tables.instruction(row);
    let operator = w[1] as usize;
    let first = Reference { name: w[2], index: w[3] };
    let second = Reference { name: w[4], index: w[5] };
    let reference = Reference { name: w[7], index: w[8] };
    let source = match w[6] {
        0 => Source::Integer(w[7]),
        1 => Source::Real(w[7]),
        _ => Source::Reference(reference),
    };
    match w[0] {
        0 => Instruction::Arithmetic { operator: [Add, Sub, Div, Mul][operator], destination: first, source },
        1 => Instruction::Comparison {
            operator: [Eq, Ge, Gt, Le, Lt][operator],
            destination: first,
            lhs: second,
            rhs: source,
        },
        2 => Instruction::Logic { operator: [And, Ior, Xor, Shl, Shr, Ashr][operator], destination: first, source },
        3 => Instruction::Unary { operator: [Neg, Not][operator], operand: first },
        4 => Instruction::Move { destination: first, source },
        5 => Instruction::Exchange { first, second },
        6 => Instruction::Load { destination: first, source: second.name, offset: reference },
        7 => Instruction::Store { destination: first.name, offset: second, source },
        8 => Instruction::Frame { first_node: w[2] as usize, nodes: w[3] as usize },
        9 => Instruction::Call { name: w[2], first_argument: w[3] as usize, arguments: w[4] as usize },
        10 if operator == 0 => Instruction::Nop,
        10 => Instruction::Other,
        11 => Instruction::Jump { label: second.name },
        12 => Instruction::JumpWhen { condition: first, label: second.name },
        13 => Instruction::JumpUnless { condition: first, label: second.name },
        14 => Instruction::Label { label: second.name },
        15 => Instruction::Halt,
        _ => Instruction::Convert { destination: first, source: reference },
    }
}

/// Every row of loaded tables.
pub fn all(tables: &Tables) -> impl Iterator<Item = Instruction> + '_ {
    (0..tables.instructions().count()).map(move |row| instruction(tables, row))
}

/// Every operand's name, overwritten ones too. A label is no operand.
pub fn names(row: Instruction) -> Vec<u64> {
    let mut names: Vec<u64> = written(row).iter().map(|reference| reference.name).collect();
    match row {
        Instruction::Load { source, .. } => names.push(source),
        Instruction::Store { destination, .. } => names.push(destination),
        _ => {}
    }
    names
}

/// Every operand with a written index: "a region operand has index 0, which is no written index".
pub fn written(row: Instruction) -> Vec<Reference> {
    let (mut references, source) = match row {
        Instruction::Arithmetic { destination, source, .. }
        | Instruction::Logic { destination, source, .. }
        | Instruction::Move { destination, source } => (vec![destination], Some(source)),
        Instruction::Comparison { destination, lhs, rhs, .. } => (vec![destination, lhs], Some(rhs)),
        Instruction::Unary { operand, .. } => (vec![operand], None),
        Instruction::Exchange { first, second } => (vec![first, second], None),
        Instruction::Load { destination, offset, .. } => (vec![destination, offset], None),
        Instruction::Store { offset, source, .. } => (vec![offset], Some(source)),
        Instruction::JumpWhen { condition, .. } | Instruction::JumpUnless { condition, .. } => (vec![condition], None),
        Instruction::Convert { destination, source } => (vec![destination, source], None),
        _ => (Vec::new(), None),
    };
    if let Some(Source::Reference(reference)) = source {
        references.push(reference);
    }
    references
}
