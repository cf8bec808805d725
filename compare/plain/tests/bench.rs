//! 01's ten bench lines, the third and the fourth as 02 has them, on the plain machine: a BIT[2], n INTEGER[3],
//! o OCTET[1], r REAL[2].
mod machine;

use machine::*;

/// Opened and run to the last row, which answers that number.
fn last(rows: &[[u64; 9]]) -> (u64, Machine) {
    let mut bench = opened(rows);
    let answers: Vec<u64> = rows.iter().map(|_| bench.forward()).collect();
    assert!(answers[..rows.len() - 1].iter().all(|&number| number == 0));
    (answers[rows.len() - 1], bench)
}

#[test]
fn empty_program() {
    let mut bench = machine(&[], 64);
    assert_eq!((bench.open(), bench.forward()), (0, 11));
}

#[test]
fn add_to_a_bit() {
    let mut real = machine(&[[0, 0, A, 0, 0, 0, 1, 1.5f64.to_bits(), 0]], 64);
    assert_eq!((real.open(), real.error), (5, [2, 0, 1, 3, 0, 5]));
    let mut integer = machine(&[[0, 0, A, 0, 0, 0, 0, 1, 0]], 64);
    assert_eq!((integer.open(), integer.error), (5, [4, 0, 1, 0, 0, 9]));
}

#[test]
fn store_of_an_undeclared_source() {
    let mut bench = machine(&[[7, 0, N, 0, N, 0, 2, UNDECLARED, 0]], 64);
    assert_eq!((bench.open(), bench.error), (5, [1, 0, 3, 0, 8, 8]));
}

#[test]
fn move_300_into_an_octet() {
    let row = move_literal(O, 300);
    assert_eq!(last(&[row]), (24, opened(&[row])));
}

#[test]
fn division() {
    let (number, bench) = last(&[move_literal(N, -7), [0, 2, N, 0, 0, 0, 0, 2, 0]]);
    assert_eq!((number, bench.cell(N_WORD)), (0, [1, -3i64 as u64]));
}

#[test]
fn shifts() {
    let shift = |operator, count: i64| last(&[move_literal(O, 128), [2, operator, O, 0, 0, 0, 0, count as u64, 0]]);
    let ((ashr, by_1), (shl, by_8)) = (shift(5, 1), shift(3, 8));
    assert_eq!((ashr, by_1.cell(O_WORD)), (0, [2, 192]));
    assert_eq!((shl, by_8.cell(O_WORD)), (0, [2, 0]));
    assert_eq!(shift(3, -1).0, 16);
}

#[test]
fn imaginary_part() {
    let frame = |imaginary: u64| {
        let mut bench = machine(&[[8, 0, 0, 1, 0, 0, 3, 0, 0]], 64);
        bench.tables.nodes = vec![3, 0, imaginary];
        (bench.open(), bench.error)
    };
    assert_eq!(frame(0x3CB0_0000_0000_0000).0, 0);
    assert_eq!(frame(0x3CB0_0000_0000_0001), (5, [3, 0, 4, 0, 6, 8]));
}

#[test]
fn load_by_an_offset() {
    let load = |offset| last(&[[4, 0, R, 1, 0, 0, 1, 7, 0], move_literal(N, offset), [6, 0, R, 0, R, 0, 2, N, 0]]);
    let (number, bench) = load(1);
    assert_eq!((number, bench.cell(R_WORD)), (0, [3, 7]));
    assert_eq!(load(2).0, 14);
}

#[test]
fn exchange_with_itself() {
    let (number, bench) = last(&[[5, 0, N, 0, N, 0, 3, 0, 0]]);
    assert_eq!((number, bench.cell(N_WORD), bench.position), (0, [1, 0], [1, 1, 3]));
}

#[test]
fn journal_of_two() {
    let mut bench = machine(&[move_literal(N, 5), move_literal(N, 6)], 2);
    assert_eq!((bench.open(), bench.forward(), bench.forward()), (0, 0, 13));
    assert_eq!((bench.back(), bench.forward(), bench.cell(N_WORD)), (0, 0, [1, 5]));
}
