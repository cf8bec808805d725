//! Programs at the limits: 64 regions, 32 externs, 256 parameters, 2,048 nodes, 1,024 arguments, 512 rows.
use super::{
    names,
    rows::{Care, Rows},
    small::{fill, parameter, regions},
};
use crate::{
    program::{Extern, Layout, Node, Program, Row},
    random_numbers::Random,
};

const REGIONS: usize = 64;
const EXTERNS: usize = 32;
const PARAMETERS: usize = 256;
const NODES: usize = 2048;
const ARGUMENTS: usize = 1024;
const ROWS: usize = 512;

/// One after another: each limit by itself, trees of every extreme shape, then all at once.
pub fn program(random: &mut Random, turn: u64) -> Program {
    let count = if turn % 8 == 0 { REGIONS } else { 1 + random.size(REGIONS) };
    let mut program = Program { regions: regions(random, count), ..Program::default() };
    let care = Care(random.pick(&[0, 90, 99, 100]));
    match turn % 8 {
        0 => fill(random, &mut program, 20, care, 9),
        1 => externs(random, &mut program, EXTERNS, PARAMETERS / EXTERNS),
        2 => externs(random, &mut program, 1, PARAMETERS),
        3 => deep(random, &mut program, care),
        4 => wide(random, &mut program, care, NODES),
        5 => arguments(random, &mut program),
        6 => rows(random, &mut program, care),
        _ => everything(random, &mut program, care),
    }
    program
}

fn externs(random: &mut Random, program: &mut Program, count: usize, parameters: usize) {
    for name in names(random, count) {
        let parameters = (0..parameters).map(|_| parameter(random)).collect();
        program.externs.push(Extern { name, returned: random.below(5), parameters });
    }
    let care = Care(random.pick(&[50, 99, 100]));
    let rows = if count == 1 { 3 } else { 32 };
    let mut calls = Vec::new();
    for i in 0..rows {
        let called = program.externs[i % count].clone();
        let arguments = Rows { random, program, care, most_nodes: 1 }.arguments(&called);
        calls.push(Row::Call { name: called.name, arguments });
    }
    program.rows.extend(calls);
}

/// A tree as deep as the table: one child each, or all but the last on one side.
fn deep(random: &mut Random, program: &mut Program, care: Care) {
    let mut leaf = || Rows { random: &mut *random, program, care, most_nodes: 1 }.leaf();
    let shape = leaf()[1] % 3;
    let mut nodes: Vec<Node> = Vec::new();
    match shape {
        0 => {
            nodes.extend((0..NODES as u64 - 1).map(|k| [[1, 0, 0], [5, 0, 0]][k as usize % 2]));
            nodes.push(leaf());
        }
        1 => {
            nodes.extend([[2, 0, 0]; NODES / 2 - 1]);
            nodes.extend((0..NODES / 2).map(|_| leaf()));
        }
        _ => {
            (0..NODES / 2 - 1).for_each(|_| nodes.extend([[2, 0, 0], leaf()]));
            nodes.push(leaf());
        }
    }
    program.rows = (0..5).map(|operator| Row::Frame { operator, nodes: nodes.clone() }).collect();
    program.layout = Layout::Shared;
}

/// Trees of any shape until so many nodes are used.
fn wide(random: &mut Random, program: &mut Program, care: Care, nodes: usize) {
    let mut left = nodes;
    while left > 0 && program.rows.len() < ROWS {
        let most_nodes = left.min(1 + random.size(NODES));
        let row = Rows { random, program, care, most_nodes }.row();
        if let Row::Frame { nodes, .. } = &row {
            left -= nodes.len();
            program.rows.push(row);
        }
    }
}

/// As many arguments as the table holds, in one CALL or in many; parameters for a part of them.
fn arguments(random: &mut Random, program: &mut Program) {
    let parameters = (0..random.size(PARAMETERS + 1)).map(|_| parameter(random)).collect();
    let name = random.word();
    program.externs.push(Extern { name, returned: random.below(5), parameters });
    let each = random.pick(&[1, 4, 64, ARGUMENTS]);
    for _ in 0..(ARGUMENTS / each).min(ROWS) {
        let mut rows = Rows { random: &mut *random, program, care: Care(50), most_nodes: 1 };
        let arguments = (0..each).map(|_| rows.argument()).collect();
        program.rows.push(Row::Call { name, arguments });
    }
}

/// A full program whose error, if any, comes late.
fn rows(random: &mut Random, program: &mut Program, care: Care) {
    fill(random, program, ROWS - 1, Care(100), 3);
    fill(random, program, 1, care, 3);
}

/// Every table nearly full, none beyond its limit.
fn everything(random: &mut Random, program: &mut Program, care: Care) {
    externs(random, program, EXTERNS, PARAMETERS / EXTERNS);
    wide(random, program, care, NODES - ROWS);
    let left = ROWS - program.rows.len();
    fill(random, program, left, Care(100), 1);
    while program.tables().arguments.len() > ARGUMENTS * tables::ARGUMENT {
        program.rows.pop();
    }
}
