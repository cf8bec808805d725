//! One-row programs: every family without trees and arguments, operator, source form, and kind of every operand,
//! undeclared too; operands that share a name; names around 0 and 2^64-1. Jumps, LABEL, HALT and CONVERT also among other
//! rows.
use super::{CHOICES, UNDECLARED};
use crate::program::{Program, Row};

const OPERATORS: [u64; 8] = [4, 5, 6, 2, 1, 1, 1, 1];
const NAMES: [[u64; 3]; 3] = [[0, 1, 2], [u64::MAX, u64::MAX - 1, u64::MAX - 2], [u64::MAX, 0, 1 << 63]];
const INDICES: [u64; 2] = [0, u64::MAX];
const INTEGERS: [u64; 5] = [0, 1, 300, 1 << 63, u64::MAX];
const REALS: [f64; 5] = [0.0, -0.0, 1.5, f64::INFINITY, f64::NAN];

/// The source: a literal, a reference to a choice of region, or none.
#[derive(Clone, Copy)]
pub enum Source {
    Literal(u64, u64),
    Reference(u64),
    None,
}

/// A row but for its names and indices: each operand by its choice of region.
#[derive(Clone, Copy)]
pub struct Shape {
    pub family: u64,
    pub operator: u64,
    pub first: u64,
    pub second: Option<u64>,
    pub source: Source,
}

fn sources(family: u64) -> Vec<Source> {
    let mut sources: Vec<Source> = CHOICES.iter().map(|&choice| Source::Reference(choice)).collect();
    match family {
        3 | 5 => return vec![Source::None],
        6 => return sources,
        _ => {}
    }
    sources.extend(INTEGERS.iter().map(|&bits| Source::Literal(0, bits)));
    if family != 2 {
        sources.extend(REALS.iter().map(|x| Source::Literal(1, x.to_bits())));
    }
    sources
}

fn seconds(family: u64) -> Vec<Option<u64>> {
    match family {
        1 | 5 | 6 | 7 => CHOICES.map(Some).to_vec(),
        _ => vec![None],
    }
}

/// Every shape of families 0 to 7.
pub fn shapes() -> Vec<Shape> {
    let mut shapes = Vec::new();
    for family in 0..8 {
        for operator in 0..OPERATORS[family as usize] {
            for first in CHOICES {
                for second in seconds(family) {
                    let shape = |source| Shape { family, operator, first, second, source };
                    shapes.extend(sources(family).into_iter().map(shape));
                }
            }
        }
    }
    shapes
}

pub fn each(visit: &mut dyn FnMut(Program)) {
    shapes().iter().for_each(|shape| each_naming(shape, visit));
    for operator in 0..2 {
        visit(Program { rows: vec![Row::Plain([10, operator, 0, 0, 0, 0, 3, 0, 0])], ..Program::default() });
    }
    each_flow(visit);
    each_convert(visit);
}

/// Families 11 to 15: the condition of each kind and undeclared, its label on no LABEL row, on one or on two; alone,
/// and with a row after it that passes or fails.
fn each_flow(visit: &mut dyn FnMut(Program)) {
    for [condition, label, other] in NAMES {
        for (family, &kind) in (11..16).flat_map(|family| CHOICES.iter().map(move |kind| (family, kind))) {
            // A label may be the condition's number.
            for (label, index) in [(label, INDICES[0]), (label, INDICES[1]), (condition, INDICES[0])] {
                let row = flow(family, [condition, index], label);
                for (labels, after) in (0..9).map(|turn| (turn / 3, turn as u64 % 3)) {
                    visit(flow_program(row, (condition, kind), [label, other], labels, after));
                }
            }
        }
    }
}

/// Words that the family does not use are 0.
fn flow(family: u64, [condition, index]: [u64; 2], label: u64) -> [u64; 9] {
    let [condition, index] = if matches!(family, 12 | 13) { [condition, index] } else { [0, 0] };
    let label = if family == 15 { 0 } else { label };
    [family, 0, condition, index, label, 0, 3, 0, 0]
}

/// The row, so many LABEL rows before it, and after it none, a row that passes or one that fails.
fn flow_program(row: [u64; 9], operand: (u64, u64), [label, other]: [u64; 2], labels: usize, after: u64) -> Program {
    let mut program = program(&[operand], false, row);
    program.rows.splice(0..0, vec![Row::Plain(flow(14, [0, 0], label)); labels]);
    match after {
        0 => program,
        kind => with_neg(program, other, kind),
    }
}

/// NEG of an INTEGER, which passes, or of an OCTET after the rows.
fn with_neg(mut program: Program, name: u64, kind: u64) -> Program {
    program.regions.push([name, kind, 1]);
    program.rows.push(Row::Plain([3, 0, name, 0, 0, 0, 3, 0, 0]));
    program
}

/// Every pair of operands, under each way of naming them; alone, and with a row after it that passes or fails.
fn each_convert(visit: &mut dyn FnMut(Program)) {
    for (first, source) in CHOICES.iter().flat_map(|&first| CHOICES.iter().map(move |&source| (first, source))) {
        let source = Source::Reference(source);
        each_naming(&Shape { family: 16, operator: 0, first, second: None, source }, &mut |program| {
            visit(program.clone());
            for kind in [1, 2] {
                visit(with_neg(program.clone(), 2000, kind));
            }
        });
    }
}

/// The row under each way of naming its operands: three stocks of names, and operands of one choice with one name.
fn each_naming(shape: &Shape, visit: &mut dyn FnMut(Program)) {
    let (first, second, third) = (Some(shape.first), shape.second, shape.third());
    for names in NAMES {
        for shared in 0..5 {
            let [a, mut b, mut c] = names;
            match shared {
                0 => {}
                1 if first == second => b = a,
                2 if first == third => c = a,
                3 if second.is_some() && second == third => c = b,
                4 if first == second && first == third => (b, c) = (a, a),
                _ => continue,
            }
            for index in INDICES {
                for decoys in [false, true] {
                    visit(shape.program([a, b, c], index, decoys));
                }
            }
        }
    }
}

impl Shape {
    /// The source's choice, where it is a reference.
    fn third(&self) -> Option<u64> {
        match self.source {
            Source::Reference(choice) => Some(choice),
            _ => None,
        }
    }

    /// Each operand with a name of its own.
    pub fn separate(&self) -> Program {
        self.program(NAMES[0], INDICES[0], false)
    }

    fn program(&self, names: [u64; 3], index: u64, decoys: bool) -> Program {
        let [a, b, c] = names;
        let mut operands = vec![(a, self.first)];
        operands.extend(self.second.map(|choice| (b, choice)));
        operands.extend(self.third().map(|choice| (c, choice)));
        program(&operands, decoys, self.words(names, index))
    }

    /// A region operand's index stays 0.
    fn words(&self, [a, b, c]: [u64; 3], index: u64) -> [u64; 9] {
        let Shape { family, operator, source, .. } = *self;
        let (second, second_index) = if self.second.is_some() { (b, index) } else { (0, 0) };
        let first_index = if family == 7 { 0 } else { index };
        let second_index = if family == 6 { 0 } else { second_index };
        let source = match source {
            Source::Literal(form, bits) => [form, bits, 0],
            Source::Reference(_) => [2, c, index],
            Source::None => [3, 0, 0],
        };
        let [form, x, y] = source;
        [family, operator, a, first_index, second, second_index, form, x, y]
    }
}

/// Declares the operands; with decoys, other names of every kind stand before them.
fn program(operands: &[(u64, u64)], decoys: bool, words: [u64; 9]) -> Program {
    let mut program = Program::default();
    if decoys {
        program.regions = (0..4).map(|kind| [1000 + kind, kind, 1]).collect();
    }
    for (i, &(name, kind)) in operands.iter().enumerate() {
        let declared = program.regions.iter().any(|region| region[0] == name);
        if kind != UNDECLARED && !declared {
            program.regions.push([name, kind, [1, 0, u64::MAX][i]]);
        }
    }
    program.rows.push(Row::Plain(words));
    program
}
