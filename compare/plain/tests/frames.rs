//! 02's counts of a frame's nodes by hand, on the plain machine: a BIT[2], n INTEGER[3], o OCTET[1], r REAL[2].
use plain::Plain;
use tables::{FrameCheck, Tables};

const A: u64 = 0;
const N: u64 = 1;
const O: u64 = 2;
const R: u64 = 3;
const UNDECLARED: u64 = 9;

const CALL: [u64; 3] = [1, 0, 0];
const INFIX: [u64; 3] = [2, 0, 0];
const PI: [u64; 3] = [4, 0, 0];
const PREFIX: [u64; 3] = [5, 0, 0];
const VARIABLE: [u64; 3] = [6, 4, 0];

const EPSILON: u64 = 0x3CB0_0000_0000_0000;
const SIGN: u64 = 1 << 63;

/// A type error of its own, and no frame.
const ADD_UNDECLARED: [u64; 9] = [0, 0, UNDECLARED, 0, 0, 0, 0, 1, 0];
const NOP: [u64; 9] = [10, 0, 0, 0, 0, 0, 3, 0, 0];

fn address(name: u64) -> [u64; 3] {
    [0, name, 7]
}

fn number(imaginary: u64) -> [u64; 3] {
    [3, 7, imaginary]
}

fn frame_row(first: u64, count: u64) -> [u64; 9] {
    [8, 1, first, count, 0, 0, 3, 0, 0]
}

fn program(nodes: &[[u64; 3]], rows: &[[u64; 9]]) -> Tables {
    let regions = vec![A, 0, 2, N, 1, 3, O, 2, 1, R, 3, 2];
    Tables { regions, nodes: nodes.concat(), instructions: rows.concat(), ..Tables::default() }
}

/// The number, and the out-arrays, which hold 7 before.
fn frame(tables: &Tables, row: u64) -> (u64, [u64; 1], [u64; 6]) {
    let (mut looked, mut error) = ([7], [7; 6]);
    (Plain.frame(tables, row, &mut looked, &mut error), looked, error)
}

/// All nodes as one frame.
fn expression(nodes: &[[u64; 3]]) -> (u64, [u64; 1], [u64; 6]) {
    frame(&program(nodes, &[frame_row(0, nodes.len() as u64)]), 0)
}

fn passes(nodes: &[[u64; 3]], looked: u64) {
    assert_eq!(expression(nodes), (0, [looked], [7; 6]));
}

/// With that kind of error at that spot, and what was found.
fn fails(nodes: &[[u64; 3]], looked: u64, kind: u64, spot: u64, found: u64) {
    assert_eq!(expression(nodes), (5, [looked], [kind, 0, spot, 0, found, 8]));
}

#[test]
fn the_whole_tree_where_none_fails() {
    passes(&[PI], 1);
    passes(&[address(R)], 1);
    passes(&[CALL, address(R)], 2);
    passes(&[PREFIX, number(0)], 2);
    passes(&[INFIX, PI, address(R)], 3);
    passes(&[INFIX, INFIX, PI, CALL, address(R), PREFIX, number(0)], 7);
    passes(&[&[PREFIX; 2047][..], &[PI]].concat(), 2048);
}

#[test]
fn each_way_to_fail() {
    fails(&[address(UNDECLARED)], 1, 1, 4, 8);
    fails(&[address(A)], 1, 3, 4, 0);
    fails(&[address(N)], 1, 3, 4, 1);
    fails(&[address(O)], 1, 3, 4, 2);
    fails(&[number(EPSILON + 1)], 1, 3, 4, 6);
    fails(&[number(SIGN + EPSILON + 1)], 1, 3, 4, 6);
    fails(&[number(f64::INFINITY.to_bits())], 1, 3, 4, 6);
    fails(&[VARIABLE], 1, 3, 4, 7);
}

#[test]
fn numbers_that_pass() {
    for imaginary in [0, SIGN, EPSILON, SIGN + EPSILON, f64::NAN.to_bits(), SIGN + f64::NAN.to_bits(), 1] {
        passes(&[number(imaginary)], 1);
    }
}

/// INFIX(INFIX(PI, CALL(r)), PREFIX(number)), its leaves at the places 2, 4 and 6.
#[test]
fn the_failing_node_at_each_place() {
    let with = |changed: &[(usize, [u64; 3])]| {
        let mut nodes = [INFIX, INFIX, PI, CALL, address(R), PREFIX, number(0)];
        changed.iter().for_each(|&(place, node)| nodes[place] = node);
        nodes
    };
    fails(&with(&[(2, VARIABLE)]), 3, 3, 6, 7);
    fails(&with(&[(4, address(UNDECLARED))]), 5, 1, 8, 8);
    fails(&with(&[(6, number(EPSILON + 1))]), 7, 3, 10, 6);
    fails(&with(&[(2, VARIABLE), (4, address(N))]), 3, 3, 6, 7);
    fails(&with(&[(4, address(N)), (6, VARIABLE)]), 5, 3, 8, 1);
    fails(&with(&[(2, address(A)), (4, address(N)), (6, VARIABLE)]), 3, 3, 6, 0);
}

/// "Stop at the left operand": the right one may be as long as it likes.
#[test]
fn the_left_operand_of_the_longest_tree() {
    let mut nodes = [PREFIX; 2048];
    (nodes[0], nodes[1], nodes[2047]) = (INFIX, VARIABLE, VARIABLE);
    fails(&nodes, 2, 3, 5, 7);
    nodes[1] = PI;
    fails(&nodes, 2048, 3, 2051, 7);
    nodes[2047] = PI;
    passes(&nodes, 2048);
}

/// Two frames that share a node, and rows with type errors about them.
#[test]
fn this_row_alone() {
    let nodes = [VARIABLE, INFIX, address(R), PREFIX, VARIABLE, PI];
    let rows = [ADD_UNDECLARED, frame_row(1, 4), frame_row(5, 1), frame_row(3, 2), frame_row(0, 1), ADD_UNDECLARED];
    let tables = program(&nodes, &rows);
    assert_eq!(frame(&tables, 1), (5, [4], [3, 1, 7, 0, 7, 8]));
    assert_eq!(frame(&tables, 2), (0, [1], [7; 6]));
    assert_eq!(frame(&tables, 3), (5, [2], [3, 3, 5, 0, 7, 8]));
    assert_eq!(frame(&tables, 4), (5, [1], [3, 4, 4, 0, 7, 8]));
}

/// What open and forward ask for does not count: cells, another instruction, an extern or a label that is not there, a
/// condition that is not declared.
#[test]
fn no_other_number() {
    let flow = [12, 0, UNDECLARED, 0, 50, 0, 3, 0, 0];
    let rows = [[10, 1, 0, 0, 0, 0, 3, 0, 0], [9, 0, UNDECLARED, 0, 0, 0, 3, 0, 0], flow, frame_row(0, 1)];
    let mut tables = program(&[address(R)], &rows);
    tables.regions[2] = u64::MAX;
    tables.regions[11] = u64::MAX;
    assert_eq!(frame(&tables, 3), (0, [1], [7; 6]));
}

fn refused(number: u64, tables: &Tables, row: u64) {
    assert_eq!(frame(tables, row), (number, [7], [7; 6]));
}

#[test]
fn a_row_that_is_no_frame() {
    let families = [0, 1, 2, 4, 7].map(|family| [family, 0, A, 0, 0, 0, 0, 0, 0]);
    let mut rows = families.to_vec();
    rows.extend([[3, 0, N, 0, 0, 0, 3, 0, 0], [5, 0, N, 0, N, 0, 3, 0, 0], [6, 0, N, 0, N, 0, 2, N, 0]]);
    rows.extend([[9, 0, 8, 0, 0, 0, 3, 0, 0], NOP, [10, 1, 0, 0, 0, 0, 3, 0, 0]]);
    rows.extend([11, 12, 13, 14, 15].map(|family| [family, 0, 0, 0, 0, 0, 3, 0, 0]));
    rows.push(frame_row(0, 1));
    let tables = program(&[PI], &rows);
    (0..16).for_each(|row| refused(2, &tables, row));
    assert_eq!(frame(&tables, 16).0, 0);
    [17, 1 << 32, SIGN, u64::MAX].iter().for_each(|&row| refused(2, &tables, row));
    refused(2, &program(&[], &[]), 0);
}

/// 1 before 2 before 3 before 5: tables that have all four are mended one by one, for a frame and for other rows.
#[test]
fn the_order_of_refusals() {
    let mut tables = program(&[VARIABLE, [7, 0, 0]], &[frame_row(0, 1), NOP]);
    tables.regions.extend([R, 3, 1]);
    tables.arguments = vec![0, 0];
    [0, 1, 2].iter().for_each(|&row| refused(1, &tables, row));
    tables.arguments.clear();
    [0, 1, 2].iter().for_each(|&row| refused(2, &tables, row));
    tables.nodes.truncate(3);
    refused(3, &tables, 0);
    [1, 2].iter().for_each(|&row| refused(2, &tables, row));
    tables.regions.truncate(12);
    assert_eq!(frame(&tables, 0), (5, [1], [3, 0, 4, 0, 7, 8]));
    [1, 2].iter().for_each(|&row| refused(2, &tables, row));
}

/// "Exactly one tree (2 otherwise)", in the chosen row and in others.
#[test]
fn no_tree() {
    let nodes = [INFIX, PI, PI, PI];
    for (first, count) in [(0, 0), (0, 2), (0, 4), (1, 2), (4, 1), (u64::MAX, 2), (0, u64::MAX)] {
        refused(2, &program(&nodes, &[frame_row(first, count)]), 0);
        refused(2, &program(&nodes, &[frame_row(0, 3), frame_row(first, count)]), 0);
    }
    assert_eq!(frame(&program(&nodes, &[frame_row(0, 3)]), 0), (0, [3], [7; 6]));
}
