//! Programs to measure on, built from their sizes.
use tables::{Tables, ARGUMENT, EXTERN, INSTRUCTION, NODE, NO_RETURN, PARAMETER, REGION};

const INTEGER: u64 = 1;
const OCTET: u64 = 2;
const REAL: u64 = 3;

/// The i-th region's name; kinds go round by index.
fn region(i: u64) -> u64 {
    100 + i
}

fn called(i: u64) -> u64 {
    1000 + i
}

/// That many regions (a multiple of four) of a length.
pub fn regions(count: u64, length: u64) -> Tables {
    Tables { regions: (0..count).flat_map(|i| [region(i), i % 4, length]).collect(), ..Tables::default() }
}

/// Puts regions that no row names before the others.
pub fn unused_first(tables: &mut Tables, count: u64) {
    let unused: Vec<u64> = (0..count).flat_map(|i| [10_000 + i, 0, 1]).collect();
    tables.regions.splice(0..0, unused);
}

/// Spreads the names so that all have one mark in the library, which then compares every two rows' names.
pub fn share_mark(tables: &mut Tables) {
    let spread = |name: &mut u64| *name *= 251;
    tables.regions.chunks_mut(REGION).for_each(|row| spread(&mut row[0]));
    tables.externs.chunks_mut(EXTERN).for_each(|row| spread(&mut row[0]));
    tables.nodes.chunks_mut(NODE).filter(|row| row[0] == 0).for_each(|row| spread(&mut row[1]));
    tables.arguments.chunks_mut(ARGUMENT).filter(|row| row[0] < 2).for_each(|row| spread(&mut row[1]));
    for row in tables.instructions.chunks_mut(INSTRUCTION).filter(|row| row[0] != 8) {
        spread(&mut row[2]);
        if row[0] < 8 {
            spread(&mut row[4]);
        }
        if row[6] == 2 {
            spread(&mut row[7]);
        }
    }
}

/// A region of that kind, another for each turn.
fn of_kind(tables: &Tables, kind: u64, turn: u64) -> u64 {
    let each = tables.regions.len() as u64 / 12;
    region(4 * (turn % each) + kind)
}

/// Adds that many classical rows without error, families 0 to 7 in turn.
pub fn classical(tables: &mut Tables, rows: u64) {
    for i in 0..rows {
        let name = |kind| of_kind(tables, kind, i / 8);
        let other = |kind| of_kind(tables, kind, i / 8 + 1);
        let row = match i % 8 {
            0 => [0, 0, name(INTEGER), 0, 0, 0, 2, other(INTEGER), 0],
            1 => [1, 0, name(0), 0, name(REAL), 0, 2, other(REAL), 0],
            2 => [2, 1, name(OCTET), 0, 0, 0, 2, other(OCTET), 0],
            3 => [3, 0, name(REAL), 0, 0, 0, 3, 0, 0],
            4 => [4, 0, name(REAL), 0, 0, 0, 1, 1.5f64.to_bits(), 0],
            5 => [5, 0, name(OCTET), 0, other(OCTET), 0, 3, 0, 0],
            6 => [6, 0, name(REAL), 0, other(REAL), 0, 2, name(INTEGER), 0],
            _ => [7, 0, name(OCTET), 0, name(INTEGER), 0, 2, other(OCTET), 0],
        };
        tables.instructions.extend(row);
    }
}

/// ADD to a BIT, an operand error.
fn failing() -> [u64; INSTRUCTION] {
    [0, 0, region(0), 0, 0, 0, 0, 1, 0]
}

/// Makes the last row fail.
pub fn fail_last(tables: &mut Tables) {
    let last = tables.instructions.len() - INSTRUCTION;
    tables.instructions[last..].copy_from_slice(&failing());
}

/// Puts a row that fails before the others.
pub fn fail_first(tables: &mut Tables) {
    tables.instructions.splice(0..0, failing());
}

/// Adds a tree as deep as its nodes allow, all but the last on the right, and gives its first node. `nodes` is odd
/// for infix nodes alone; else one prefix node stands on top.
fn deep_tree(tables: &mut Tables, nodes: u64) -> u64 {
    let first = (tables.nodes.len() / NODE) as u64;
    if nodes % 2 == 0 {
        tables.nodes.extend([5, 0, 0]);
    }
    for turn in 0..(nodes - 1) / 2 {
        let leaf = [0, of_kind(tables, REAL, turn), 0];
        tables.nodes.extend([2, 0, 0]);
        tables.nodes.extend(leaf);
    }
    tables.nodes.extend([3, 1.5f64.to_bits(), 0]);
    first
}

/// The nodes of so many deep trees of that many nodes each.
pub fn deep_trees(count: u64, nodes: u64) -> Vec<u64> {
    let mut tables = regions(8, 8);
    (0..count).for_each(|_| {
        deep_tree(&mut tables, nodes);
    });
    tables.nodes
}

/// A prefix over 1,023 infix nodes, each but the first the left child of the one before; every leaf an address: 2,048 nodes.
pub fn left_tree() -> Vec<u64> {
    let leaves = (0..1024).flat_map(|i| [0, region(i), i]);
    [5, 0, 0].into_iter().chain([2, 0, 0].repeat(1023)).chain(leaves).collect()
}

/// An address under 2,047 nodes of one child.
pub fn chain() -> Vec<u64> {
    [5, 0, 0].repeat(2047).into_iter().chain([0, region(0), 0]).collect()
}

fn frame(operator: u64, first: u64, nodes: u64) -> [u64; INSTRUCTION] {
    [8, operator % 5, first, nodes, 0, 0, 3, 0, 0]
}

/// Adds frame rows, each with a deep tree of its own.
pub fn frames(tables: &mut Tables, rows: u64, nodes: u64) {
    for i in 0..rows {
        let first = deep_tree(tables, nodes);
        tables.instructions.extend(frame(i, first, nodes));
    }
}

/// Adds frame rows that share one deep tree.
pub fn shared_frames(tables: &mut Tables, rows: u64, nodes: u64) {
    let first = deep_tree(tables, nodes);
    (0..rows).for_each(|i| tables.instructions.extend(frame(i, first, nodes)));
}

/// Adds a frame row over an infix node whose left leaf, an INTEGER, fails; on the right a deep tree of that many nodes.
pub fn left_fails(tables: &mut Tables, right: u64) {
    let first = (tables.nodes.len() / NODE) as u64;
    tables.nodes.extend([2, 0, 0]);
    tables.nodes.extend([0, region(INTEGER), 0]);
    deep_tree(tables, right);
    tables.instructions.extend(frame(0, first, right + 2));
}

/// Adds externs without return, of so many parameters each: a mutable INTEGER, a REAL, a REAL vector of the regions'
/// length, a mutable OCTET vector of any length, in turn.
pub fn externs(tables: &mut Tables, count: u64, parameters: u64) {
    let length = tables.regions[2];
    for e in 0..count {
        tables.externs.extend([called(e), NO_RETURN, e * parameters, parameters]);
        for p in 0..parameters {
            let row = match p % 4 {
                0 => [5000 + p, 1, 0, INTEGER, 0],
                1 => [5000 + p, 0, 0, REAL, 0],
                2 => [5000 + p, 0, 1, REAL, length],
                _ => [5000 + p, 1, 2, OCTET, 0],
            };
            tables.parameters.extend(row);
        }
    }
}

/// Makes every parameter mutable, so that a CALL writes all that it reads.
pub fn all_mutable(tables: &mut Tables) {
    tables.parameters.chunks_mut(PARAMETER).for_each(|p| p[1] = 1);
}

/// The names of a CALL's arguments.
#[derive(Clone, Copy, PartialEq)]
pub enum Names {
    /// Of regions, so that every argument fits; immediates among them.
    Fitting,
    /// Another for each argument, none declared, descending.
    Undeclared,
}

/// Adds CALLs of the externs in turn; gives the first's row.
pub fn calls(tables: &mut Tables, rows: u64, names: Names) -> u64 {
    let chosen = (tables.instructions.len() / INSTRUCTION) as u64;
    let externs = tables.externs.len() as u64 / 4;
    for i in 0..rows {
        let parameters = tables.externs[3];
        let first = tables.arguments.len() as u64 / 3;
        for p in 0..parameters {
            let name = |kind| match names {
                Names::Fitting => of_kind(tables, kind, i + p / 4),
                Names::Undeclared => 9000 - p,
            };
            let argument = match p % 4 {
                0 => [1, name(INTEGER), 0],
                1 if names == Names::Fitting => [2, 1.5f64.to_bits(), 0],
                1 => [1, name(REAL), 0],
                2 => [0, name(REAL), 0],
                _ => [0, name(OCTET), 0],
            };
            tables.arguments.extend(argument);
        }
        tables.instructions.extend([9, 0, called(i % externs), first, parameters, 0, 3, 0, 0]);
    }
    chosen
}

/// The first classical row of `limits`.
pub const LIMITS_CLASSICAL: u64 = 128;

/// Every table at its limit, and every cell: 128 CALLs of 8 arguments, 256 classical rows, 128 frames of 16 nodes.
pub fn limits() -> Tables {
    let mut tables = regions(64, 64);
    externs(&mut tables, 32, 8);
    calls(&mut tables, 128, Names::Fitting);
    classical(&mut tables, 256);
    frames(&mut tables, 128, 16);
    tables
}

/// The same, but each of the 512 rows is a frame over all 2,048 nodes: the rows' ranges overlap as much as they can.
pub fn overlapping() -> Tables {
    let mut tables = Tables { instructions: Vec::new(), nodes: Vec::new(), ..limits() };
    shared_frames(&mut tables, 512, 2048);
    tables
}

/// The numbers of labels.
#[derive(Clone, Copy)]
pub enum Labels {
    Consecutive,
    /// Over all 64 bits.
    Scattered,
    /// All in one chain (docs/DECISIONS.md, L4).
    OneBucket,
}

impl Labels {
    fn number(self, i: u64) -> u64 {
        match self {
            Labels::Consecutive => i,
            Labels::Scattered => (i + 1).wrapping_mul(0x9E37_79B9_7F4A_7C15),
            Labels::OneBucket => i * 1021,
        }
    }
}

fn label(number: u64) -> [u64; INSTRUCTION] {
    [14, 0, 0, 0, number, 0, 3, 0, 0]
}

fn jump(number: u64) -> [u64; INSTRUCTION] {
    [11, 0, 0, 0, number, 0, 3, 0, 0]
}

/// A JUMP-UNLESS on a BIT of the last region that has one, which is 0.
fn unless(number: u64) -> [u64; INSTRUCTION] {
    [13, 0, region(60), 63, number, 0, 3, 0, 0]
}

/// Every table at its limit, with these 512 rows.
fn limits_with(rows: impl Iterator<Item = [u64; INSTRUCTION]>) -> Tables {
    Tables { instructions: rows.flatten().collect(), ..limits() }
}

/// 256 JUMPs, each to another of the 256 LABELs behind them, the first to the last.
pub fn jumps(labels: Labels) -> Tables {
    let targets = (0..256).rev().map(|i| jump(labels.number(i)));
    limits_with(targets.chain((0..256).map(|i| label(labels.number(i)))))
}

pub fn labels(labels: Labels) -> Tables {
    limits_with((0..512).map(|i| label(labels.number(i))))
}

/// LABELs and JUMP-UNLESSes in turn, each jump to the LABEL before the next.
pub fn ring() -> Tables {
    let number = |i: u64| Labels::Scattered.number(i % 256);
    limits_with((0..512).map(|i| if i % 2 == 0 { label(number(i / 2)) } else { unless(number(i / 2 + 1)) }))
}

pub fn jump_last() -> (Tables, u64) {
    loop_last(jump(7))
}

pub fn unless_last() -> (Tables, u64) {
    loop_last(unless(7))
}

/// `limits` with a loop of LABEL 7 and a jump in place of its last two rows, and its row.
fn loop_last(jump: [u64; INSTRUCTION]) -> (Tables, u64) {
    let mut tables = limits();
    let first = tables.instructions.len() - 2 * INSTRUCTION;
    tables.instructions.splice(first.., [label(7), jump].concat());
    (tables, (first / INSTRUCTION) as u64)
}

/// A loop of LABEL and JUMP alone.
pub fn small_loop() -> Tables {
    Tables { instructions: [label(7), jump(7)].concat(), ..regions(8, 8) }
}

/// An INTEGER counted down to 0 from as many as so many journal entries allow, and the steps that this takes: two
/// entries for MOVE, then six for each time round its four rows.
pub fn countdown(entries: u64) -> (Tables, u64) {
    let (counter, flag, times) = (region(INTEGER), region(0), (entries - 2) / 6);
    let rows = [
        [4, 0, counter, 0, 0, 0, 0, times, 0],
        label(7),
        [0, 1, counter, 0, 0, 0, 0, 1, 0],
        [1, 2, flag, 0, counter, 0, 0, 0, 0],
        [12, 0, flag, 0, 7, 0, 3, 0, 0],
    ];
    (Tables { instructions: rows.concat(), ..regions(8, 8) }, 1 + 4 * times)
}
