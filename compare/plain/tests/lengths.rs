//! 02's counts by hand, on the plain machine: a BIT[2], n INTEGER[3], and an extern that takes nothing.
use plain::Plain;
use tables::{Session, Tables};

const A: u64 = 0;
const N: u64 = 1;
const NOTHING: u64 = 8;

const MOVE: [u64; 9] = [4, 0, N, 0, 0, 0, 0, 5, 0];
const EXCHANGE: [u64; 9] = [5, 0, N, 0, N, 1, 3, 0, 0];
const FRAME: [u64; 9] = [8, 0, 0, 1, 0, 0, 3, 0, 0];
const CALL: [u64; 9] = [9, 0, NOTHING, 0, 0, 0, 3, 0, 0];
const NOP: [u64; 9] = [10, 0, 0, 0, 0, 0, 3, 0, 0];

/// Every family that is counted as 2.
const OTHERS: [[u64; 9]; 7] = [
    [0, 0, N, 0, 0, 0, 0, 1, 0],
    [1, 0, A, 0, N, 0, 0, 1, 0],
    [2, 0, N, 0, 0, 0, 0, 1, 0],
    [3, 0, N, 0, 0, 0, 3, 0, 0],
    MOVE,
    [6, 0, N, 0, N, 0, 2, N, 1],
    [7, 0, N, 0, N, 0, 0, 1, 0],
];

/// The number, and the out-arrays, which hold 7 before.
fn length(rows: &[[u64; 9]]) -> (u64, [u64; 1], [u64; 6]) {
    let (regions, externs) = (vec![A, 0, 2, N, 1, 3], vec![NOTHING, 4, 0, 0]);
    let tables = Tables { regions, externs, nodes: vec![4, 0, 0], instructions: rows.concat(), ..Tables::default() };
    let (mut entries, mut error) = ([7], [7; 6]);
    (Plain.journal_length(&tables, &mut entries, &mut error), entries, error)
}

fn gives(rows: &[[u64; 9]], sum: u64) {
    assert_eq!(length(rows), (0, [sum], [7; 6]));
}

#[test]
fn rows() {
    gives(&[], 0);
    gives(&[NOP], 1);
    gives(&[FRAME], 1);
    gives(&[EXCHANGE], 3);
    gives(&[CALL], 65);
    OTHERS.iter().for_each(|&row| gives(&[row], 2));
    gives(&[&OTHERS[..], &[NOP, FRAME, EXCHANGE, CALL]].concat(), 84);
}

#[test]
fn sums_above_the_longest_journal() {
    gives(&[CALL; 31], 2015);
    gives(&[CALL; 32], 2080);
    gives(&[CALL; 512], 33280);
}

#[test]
fn turned_down() {
    let halt = [10, 1, 0, 0, 0, 0, 3, 0, 0];
    let not_found = [9, 0, 9, 0, 0, 0, 3, 0, 0];
    assert_eq!(length(&[MOVE; 513]), (1, [7], [7; 6]));
    assert_eq!(length(&[not_found, halt]), (9, [7], [7; 6]));
    assert_eq!(length(&[MOVE, not_found]), (6, [7], [7; 6]));
    assert_eq!(length(&[halt, [0, 0, A, 0, 0, 0, 0, 1, 0]]), (5, [7], [4, 1, 1, 0, 0, 9]));
}
