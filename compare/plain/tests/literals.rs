//! 02's literals that do not fit by hand, on the plain machine: MOVE and STORE of an integer literal.
mod machine;

use machine::*;
use tables::Session;

const BIT: u64 = 0;
const INTEGER: u64 = 1;
const OCTET: u64 = 2;
const REAL: u64 = 3;

const EDGES: [i64; 9] = [0, 1, 2, -1, 255, 256, 300, i64::MIN, i64::MAX];

/// Literals that a kind takes, of these.
const TAKEN: [(u64, &[i64]); 3] = [(BIT, &[0, 1]), (OCTET, &[0, 1, 2, 255]), (INTEGER, &EDGES)];

/// A region of each declared kind, and its first cell's place.
const TARGETS: [(u64, usize); 4] = [(A, 0), (N, N_WORD), (O, O_WORD), (R, R_WORD)];

/// The cell n[1], which has the index of a STORE.
const N_1: usize = N_WORD + 2;

fn store_literal(name: u64, literal: i64) -> [u64; 9] {
    [7, 0, name, 0, N, 1, 0, literal as u64, 0]
}

/// Into the region's first cell.
fn both(name: u64, literal: i64) -> [[u64; 9]; 2] {
    [move_literal(name, literal), store_literal(name, literal)]
}

/// The row, which open may turn down, in place of a NOP that was opened, with cells that hold these. A refusal leaves
/// everything as it was.
fn taken(row: [u64; 9], held: &[(usize, [u64; 2])]) -> (u64, Machine) {
    let mut machine = opened(&[NOP]);
    machine.tables.instructions = row.to_vec();
    held.iter().for_each(|&(at, cell)| machine.memory[at..][..2].copy_from_slice(&cell));
    let before = machine.clone();
    let answer = machine.forward();
    assert_eq!(answer == 0, machine != before);
    (answer, machine)
}

/// "MOVE and STORE of a literal outside 0 to 1 for BIT or 0 to 255 for OCTET now stop": the cell's kind counts, whatever
/// is declared; its word, here beyond BIT, does not.
#[test]
fn edges_by_the_cells_kind() {
    for (name, at) in TARGETS {
        for (kind, fitting) in TAKEN {
            for (literal, row) in EDGES.iter().flat_map(|&literal| both(name, literal).map(|row| (literal, row))) {
                let (answer, machine) = taken(row, &[(at, [kind, 7])]);
                let left = if fitting.contains(&literal) { (0, [kind, literal as u64]) } else { (24, [kind, 7]) };
                assert_eq!((answer, machine.cell(at)), left, "{row:?}");
            }
        }
    }
}

/// "No rule for REAL", nor for a kind that is none: 18, whatever the literal.
#[test]
fn targets_without_a_rule() {
    for (name, at) in TARGETS {
        for row in EDGES.iter().flat_map(|&literal| both(name, literal)) {
            for kind in [REAL, 4, 5, u64::MAX] {
                assert_eq!(taken(row, &[(at, [kind, 7])]).0, 18, "{row:?}");
            }
        }
    }
}

/// "An integer literal too big": a real one is 18 outside REAL, and any word of REAL.
#[test]
fn real_literals() {
    for word in [0, 1, 2, 300f64.to_bits(), u64::MAX] {
        for row in [[4, 0, R, 0, 0, 0, 1, word, 0], [7, 0, R, 0, N, 1, 1, word, 0]] {
            let into = |kind| taken(row, &[(R_WORD, [kind, 7])]);
            let (answer, machine) = into(REAL);
            assert_eq!((answer, machine.cell(R_WORD)), (0, [REAL, word]));
            assert_eq!([BIT, INTEGER, OCTET, 4].map(|kind| into(kind).0), [18; 4]);
        }
    }
}

/// A copy has no literal: the target's kind and word are overwritten.
#[test]
fn copies() {
    for row in [[4, 0, A, 0, 0, 0, 2, N, 0], [7, 0, A, 0, N, 1, 2, N, 0]] {
        let (answer, machine) = taken(row, &[(N_WORD, [INTEGER, 300])]);
        assert_eq!((answer, machine.cell(0)), (0, [INTEGER, 300]));
    }
}

/// The reached cell's kind, and not its region's first cell's.
#[test]
fn the_reached_cell() {
    let reached = |row, first, second| taken(row, &[(0, [first, 0]), (2, [second, 0]), (N_1, [INTEGER, 1])]).0;
    for row in [[4, 0, A, 1, 0, 0, 0, 300, 0], store_literal(A, 300)] {
        assert_eq!(reached(row, BIT, INTEGER), 0);
        assert_eq!(reached(row, INTEGER, BIT), 24);
        assert_eq!(reached(row, INTEGER, OCTET), 24);
        assert_eq!(reached(row, INTEGER, REAL), 18);
        assert_eq!(reached(row, REAL, BIT), 24);
    }
    // The cell of the index itself.
    let (answer, machine) = taken(store_literal(N, 300), &[(N_1, [INTEGER, 1])]);
    assert_eq!((answer, machine.cell(N_1)), (0, [INTEGER, 300]));
}

/// What the row is told without open, with a journal of so many entries, where o[0] has that kind and n[1] is that cell.
fn answer(row: [u64; 9], entries: usize, reply: &[u64], o: u64, n_1: [u64; 2]) -> u64 {
    let mut machine = machine(&[row], entries);
    machine.memory[O_WORD] = o;
    machine.memory[N_1..][..2].copy_from_slice(&n_1);
    machine.reply(reply)
}

/// 17, 18 names, 14, 18 the target's kind, 24, 13.
#[test]
fn moves_in_their_order() {
    let moved = |row, entries, reply: &[u64], o| answer(row, entries, reply, o, [INTEGER, 0]);
    let unfit = move_literal(O, 300);
    assert_eq!(moved(unfit, 0, &[1], OCTET), 17);
    assert_eq!(moved(move_literal(UNDECLARED, 300), 0, &[], OCTET), 18);
    assert_eq!(moved([4, 0, O, 1, 0, 0, 0, 300, 0], 0, &[], OCTET), 14);
    assert_eq!(moved([4, 0, O, u64::MAX, 0, 0, 0, 300, 0], 0, &[], OCTET), 14);
    assert_eq!(moved(unfit, 0, &[], REAL), 18);
    assert_eq!(moved(unfit, 0, &[], 4), 18);
    assert_eq!([0, 1, 2].map(|entries| moved(unfit, entries, &[], OCTET)), [24; 3]);
    assert_eq!([0, 1, 2].map(|entries| moved(move_literal(O, 255), entries, &[], OCTET)), [13, 13, 0]);
}

/// 17, 18 names, 14 the offset's written index, 18 the offset's cell, 14 the index in it, 18 the reached cell's kind, 24,
/// 13.
#[test]
fn stores_in_their_order() {
    let stored = |row, o, n_1| answer(row, 0, &[], o, n_1);
    let (unfit, first) = (store_literal(O, 300), [INTEGER, 0]);
    assert_eq!(answer(unfit, 0, &[1], OCTET, first), 17);
    assert_eq!(stored(store_literal(UNDECLARED, 300), OCTET, first), 18);
    assert_eq!(stored([7, 0, O, 0, UNDECLARED, 0, 0, 300, 0], OCTET, first), 18);
    assert_eq!(stored([7, 0, O, 0, N, 3, 0, 300, 0], OCTET, first), 14);
    for kind in [BIT, OCTET, REAL, 4] {
        assert_eq!(stored(unfit, OCTET, [kind, 1]), 18);
    }
    for index in [1, 2, 1 << 63, u64::MAX] {
        assert_eq!(stored(unfit, OCTET, [INTEGER, index]), 14);
        assert_eq!(stored(unfit, REAL, [INTEGER, index]), 14);
    }
    assert_eq!((stored(unfit, REAL, first), stored(unfit, 4, first)), (18, 18));
    assert_eq!([0, 1, 2].map(|entries| answer(unfit, entries, &[], OCTET, first)), [24; 3]);
    assert_eq!([0, 1, 2].map(|entries| answer(store_literal(O, 255), entries, &[], OCTET, first)), [13, 13, 0]);
}

/// "The type check still passes such rows", and so do open and journal_length.
#[test]
fn passed_before_forward() {
    let rows = [move_literal(O, 300), move_literal(A, -1), store_literal(A, 2), store_literal(O, i64::MIN)];
    let mut machine = opened(&rows);
    assert_eq!((machine.forward(), machine.position), (24, [0; 3]));
    let (mut entries, mut error) = ([BLANK], [BLANK; 6]);
    assert_eq!(plain::Plain.journal_length(&machine.tables, &mut entries, &mut error), 0);
    assert_eq!((entries, error), ([8], [BLANK; 6]));
}

/// "Binary logic still keeps low bits": 300 is 256 + 44.
#[test]
fn logic_keeps_low_bits() {
    let logic = |operator, name, held: [u64; 2], literal: i64| {
        let at = TARGETS[name as usize].1;
        let (answer, machine) = taken([2, operator, name, 0, 0, 0, 0, literal as u64, 0], &[(at, held)]);
        assert_eq!((answer, machine.cell(at)[0]), (0, held[0]));
        machine.cell(at)[1]
    };
    let (and, ior, xor, shl, shr, ashr) = (0, 1, 2, 3, 4, 5);
    assert_eq!(logic(ior, O, [OCTET, 0], 300), 44);
    assert_eq!(logic(and, O, [OCTET, 255], 300), 44);
    assert_eq!(logic(xor, O, [OCTET, 255], 300), 211);
    assert_eq!(logic(ior, O, [OCTET, 0], -1), 255);
    assert_eq!((logic(ior, A, [BIT, 0], 300), logic(ior, A, [BIT, 0], 301), logic(xor, A, [BIT, 1], -1)), (0, 1, 0));
    assert_eq!(logic(ior, N, [INTEGER, 0], -1), u64::MAX);
    assert_eq!([shl, shr, ashr].map(|shift| logic(shift, O, [OCTET, 128], 300)), [0, 0, 255]);
}

/// "Integer literals are compared whole."
#[test]
fn comparisons_take_any_literal() {
    for (operator, literal, held) in [(4, 300, 1), (0, 300, 0), (2, -1, 1), (0, 44, 1)] {
        let row = [1, operator, A, 0, O, 0, 0, literal as i64 as u64, 0];
        let (answer, machine) = taken(row, &[(O_WORD, [OCTET, 44])]);
        assert_eq!((answer, machine.cell(0)), (0, [BIT, held]));
    }
}

/// A run stops at 24 and keeps the steps before it; back takes them back.
#[test]
fn a_run_stops_at_24() {
    let fitting = [move_literal(N, -1), move_literal(O, 255)];
    for unfit in [move_literal(O, 256), store_literal(O, -1)] {
        let mut machine = opened(&[fitting[0], fitting[1], unfit, NOP]);
        assert_eq!((machine.run(9), machine.position), ((0, [2, 3, 24]), [2, 2, 4]));
        assert_eq!((machine.run(9), machine.forward(), machine.position), ((0, [0, 3, 24]), 24, [2, 2, 4]));
        assert_eq!((machine.cell(N_WORD), machine.cell(O_WORD)), ([INTEGER, u64::MAX], [OCTET, 255]));
        assert_eq!((machine.back(), machine.position, machine.cell(O_WORD)), (0, [1, 1, 2], [OCTET, 0]));
        assert_eq!((machine.run(1), machine.forward()), ((0, [1, 0, 0]), 24));
        assert_eq!((machine.back(), machine.back(), machine.back()), (0, 0, 12));
        assert_eq!(machine.memory, opened(&[NOP]).memory);
    }
    assert_eq!(opened(&[move_literal(A, 2)]).back(), 12);
}
