//! 02's labels, jumps and HALT by hand, on the plain machine.
mod machine;

use machine::*;
use tables::Session;

const L: u64 = 50;
const M: u64 = u64::MAX;

fn opens(rows: &[[u64; 9]]) -> u64 {
    machine(rows, 64).open()
}

/// The condition's cell with that word, and the row after the jump in row 1, which is taken to row 3.
fn led(jump: [u64; 9], word: i64) -> u64 {
    let mut machine = opened(&[move_literal(A, word), jump, NOP, label(L)]);
    machine.rows(2)[1]
}

#[test]
fn a_jump_goes_to_its_labels_row() {
    assert_eq!(led(jump(L), 0), 3);
    assert_eq!(opened(&[label(L), NOP, jump(L)]).rows(4), [1, 2, 0, 1]);
    assert_eq!(opened(&[jump(M), label(L), jump(L), label(M), jump(L)]).rows(5), [3, 4, 1, 2, 1]);
    assert_eq!(opened(&[label(L), jump(L)]).rows(1), [1]);
}

#[test]
fn when_on_1_unless_on_0() {
    assert_eq!([led(jump_when(L, A, 0), 0), led(jump_when(L, A, 0), 1)], [2, 3]);
    assert_eq!([led(jump_unless(L, A, 0), 0), led(jump_unless(L, A, 0), 1)], [3, 2]);
    // Another cell of the region is another condition.
    assert_eq!([led(jump_when(L, A, 1), 1), led(jump_unless(L, A, 1), 1)], [2, 3]);
}

#[test]
fn halt_goes_to_the_end() {
    let mut machine = opened(&[NOP, HALT, NOP, NOP]);
    assert_eq!(machine.rows(2), [1, 4]);
    assert_eq!((machine.forward(), machine.position), (11, [4, 2, 2]));
    assert_eq!((machine.back(), machine.position), (0, [1, 1, 1]));
    // The last row too.
    assert_eq!(opened(&[HALT]).rows(1), [1]);
}

#[test]
fn each_is_a_step_with_no_change() {
    let mut machine = opened(&[jump(L), HALT, label(L), jump_when(L, A, 1), jump_unless(L, A, 1)]);
    let before = machine.memory.clone();
    assert_eq!(machine.rows(4), [2, 3, 4, 2]);
    assert_eq!((machine.position, &machine.memory), ([2, 4, 4], &before));
    // The change count, the row left, 0.
    assert_eq!(machine.journal[..12], [0, 0, 0, 0, 2, 0, 0, 3, 0, 0, 4, 0]);
}

#[test]
fn a_loop_there_and_back_again() {
    let mut machine = opened(&countdown(3));
    let start = machine.clone();
    assert_eq!(machine.rows(14), [1, 2, 3, 4, 1, 2, 3, 4, 1, 2, 3, 4, 5, 6]);
    assert_eq!((machine.cell(N_WORD), machine.cell(N_WORD + 2)), ([1, 0], [1, 5]));
    // Eight changes and fourteen closing entries.
    assert_eq!((machine.position, machine.forward()), ([6, 14, 22], 11));
    let rows: Vec<u64> = (0..14).map(|_| (machine.back(), machine.position[0]).1).collect();
    assert_eq!(rows, [5, 4, 3, 2, 1, 4, 3, 2, 1, 4, 3, 2, 1, 0]);
    assert_eq!((machine.position, machine.back(), machine.memory), ([0; 3], 12, start.memory));
}

/// More steps than rows, and a full journal.
#[test]
fn round_and_round() {
    let mut machine = machine(&[label(L), jump(L)], 5);
    assert_eq!(machine.open(), 0);
    assert_eq!(machine.rows(5), [1, 0, 1, 0, 1]);
    assert_eq!((machine.forward(), machine.position), (13, [1, 5, 5]));
    assert_eq!((machine.back(), machine.position), (0, [0, 4, 4]));
    assert_eq!(machine.rows(1), [1]);
}

/// 20: in open and in forward, right after 9, "anywhere in the program".
#[test]
fn labels() {
    assert_eq!(opens(&[label(L), NOP, label(L)]), 20);
    assert_eq!(opens(&[NOP, jump(L)]), 20);
    assert_eq!(opens(&[label(M), jump_when(L, A, 0)]), 20);
    assert_eq!(opens(&[label(M), jump_unless(L, A, 0)]), 20);
    // A label is a name of its own: never reached, reached twice, or a region's or an extern's number.
    assert_eq!(opens(&[label(L), label(M)]), 0);
    assert_eq!(opens(&[label(A), jump(A), jump(A), label(NOTHING), jump_when(A, A, 0)]), 0);
    assert_eq!(opens(&[]), 0);
}

#[test]
fn twenty_after_nine_and_before_the_rest() {
    let (bad, absent_extern) = (label(L), [9, 0, 99, 0, 0, 0, 3, 0, 0]);
    assert_eq!(opens(&[bad, bad, OTHER]), 9);
    assert_eq!(opens(&[absent_extern, jump_when(L, N, 0)]), 20);
    let forward = |row: [u64; 9], reply: &[u64]| {
        let mut machine = machine(&[row, bad, bad], 64);
        (machine.reply(reply), machine.position)
    };
    assert_eq!(forward(OTHER, &[]), (9, [0; 3]));
    assert_eq!(forward(absent_extern, &[1]), (20, [0; 3]));
    assert_eq!(forward(NOP, &[1]), (20, [0; 3]));
    assert_eq!(forward([4, 0, UNDECLARED, 0, 0, 0, 0, 1, 0], &[]), (20, [0; 3]));
    // At the end it is 11, and 9 is of the current row alone.
    let mut machine = machine(&[NOP, OTHER, bad, bad], 64);
    assert_eq!(machine.forward(), 20);
    machine.position = [4, 0, 0];
    assert_eq!(machine.forward(), 11);
}

/// Back, frame and the type check do not look at labels.
#[test]
fn twenty_in_no_other_call() {
    let mut machine = machine(&[NOP, label(L), label(L)], 4);
    machine.position = [1, 1, 1];
    assert_eq!((machine.back(), machine.position), (0, [0; 3]));
    let mistyped = [0, 0, A, 0, 0, 0, 0, 1, 0];
    assert_eq!(opens(&[jump(L), mistyped]), 5);
}

/// 21: in open alone, after 20 and before 6.
#[test]
fn conditions() {
    let absent_extern = [9, 0, 99, 0, 0, 0, 3, 0, 0];
    for name in [N, O, R, UNDECLARED] {
        assert_eq!(opens(&[label(L), jump_when(L, name, 0)]), 21);
        assert_eq!(opens(&[absent_extern, label(L), jump_unless(L, name, 0)]), 21);
        assert_eq!(opens(&[jump_when(L, name, 0)]), 20);
    }
    assert_eq!(opens(&[label(L), jump_when(L, A, 0), absent_extern]), 6);
    // The index is looked at in forward.
    assert_eq!(opens(&[label(L), jump_when(L, A, 2)]), 0);
}

/// The row in place of a MOVE that was opened; the condition's cell with that kind and word.
fn taken(row: [u64; 9], cell: [u64; 2]) -> u64 {
    let mut machine = opened(&[NOP, label(L)]);
    machine.tables.instructions[..9].copy_from_slice(&row);
    machine.memory[..2].copy_from_slice(&cell);
    machine.memory[N_WORD..][..2].copy_from_slice(&cell);
    machine.forward()
}

#[test]
fn conditions_in_forward() {
    for jump in [jump_when, jump_unless] {
        assert_eq!(taken(jump(L, UNDECLARED, u64::MAX), [0, 0]), 18);
        assert_eq!(taken(jump(L, A, 2), [0, 0]), 14);
        assert_eq!(taken(jump(L, A, u64::MAX), [0, 0]), 14);
        // Only a BIT cell has a rule, whatever is declared.
        let cells = [[0, 2], [0, u64::MAX], [1, 0], [1, 1], [2, 1], [3, 0], [4, 0], [u64::MAX, 1]];
        cells.iter().for_each(|&cell| assert_eq!(taken(jump(L, A, 0), cell), 18));
        assert_eq!(taken(jump(L, N, 0), [0, 1]), 0);
        assert_eq!(taken(jump(L, N, 0), [1, 1]), 18);
    }
}

/// Every word of the five rows but the family, made another.
#[test]
fn words() {
    let (jump, when, unless) = (jump(L), jump_when(L, A, 1), jump_unless(L, A, 1));
    let free: [([u64; 9], &[usize]); 5] =
        [(jump, &[4]), (when, &[2, 3, 4]), (unless, &[2, 3, 4]), (label(L), &[4]), (HALT, &[])];
    for (row, free) in free {
        assert_ne!(machine(&[row], 4).forward(), 2);
        for at in 1..9 {
            for word in [1, 2, 5, u64::MAX] {
                let mut other = row;
                other[at] = word;
                assert_eq!(machine(&[other], 4).forward() == 2, !free.contains(&at), "{other:?}");
            }
        }
        assert_eq!(machine(&[[&row[..6], &[0, 0, 0]].concat().try_into().unwrap()], 4).forward(), 2);
    }
    for family in [16, 17, 1 << 63, u64::MAX] {
        let mut other = HALT;
        other[0] = family;
        assert_eq!(machine(&[other], 4).forward(), 2);
    }
}

/// 19: a row above the rows, more steps than entries, more entries than the journal has.
#[test]
fn positions() {
    let answer = |position| {
        let mut machine = machine(&[NOP, NOP], 4);
        machine.position = position;
        let answers = (machine.clone().forward(), machine.clone().back(), machine.clone().run(0).0);
        assert_eq!(machine.position, position);
        answers
    };
    assert_eq!(answer([2, 0, 0]), (11, 12, 0));
    assert_eq!(answer([3, 0, 0]), (19, 19, 19));
    assert_eq!(answer([u64::MAX, 0, 0]), (19, 19, 19));
    assert_eq!(answer([0, 1, 0]), (19, 19, 19));
    assert_eq!(answer([0, 3, 2]), (19, 19, 19));
    assert_eq!(answer([0, 3, 3]), (0, 0, 0));
    assert_eq!(answer([2, 0, 4]), (11, 12, 0));
    assert_eq!(answer([0, 0, 5]), (19, 19, 19));
    assert_eq!(answer([0, u64::MAX, 4]), (19, 19, 19));
    // Steps may be fewer than entries, and more than rows.
    assert_eq!(answer([0, 4, 4]), (13, 0, 0));
}

/// The closing entry's row is where back goes; one that is absent is 19, after 12.
#[test]
fn foreign_rows_in_the_journal() {
    let back = |left: u64, steps| {
        let mut machine = opened(&[NOP, NOP, NOP]);
        machine.rows(2);
        machine.journal[3 + 1] = left;
        machine.position[1] = steps;
        (machine.back(), machine.position)
    };
    assert_eq!(back(1, 2), (0, [1, 1, 1]));
    assert_eq!(back(0, 2), (0, [0, 1, 1]));
    assert_eq!(back(2, 1), (0, [2, 0, 1]));
    assert_eq!(back(3, 2), (19, [2, 2, 2]));
    assert_eq!(back(u64::MAX, 2), (19, [2, 2, 2]));
    assert_eq!(back(3, 0), (12, [2, 0, 2]));
}

/// The third word is not looked at, and what is past the used part stays.
#[test]
fn the_rest_of_the_journal() {
    let mut machine = machine(&[jump(L), label(L)], 3);
    machine.journal.fill(BLANK);
    assert_eq!(machine.open(), 0);
    machine.rows(2);
    assert_eq!(machine.journal, [0, 0, 0, 0, 1, 0, BLANK, BLANK, BLANK]);
    machine.journal[5] = u64::MAX;
    assert_eq!((machine.back(), machine.back(), machine.position), (0, 0, [0; 3]));
}

/// 2 for every row that the sentence does not name.
#[test]
fn journal_length() {
    let length = |rows: &[[u64; 9]]| {
        let (mut entries, mut error) = ([BLANK], [BLANK; 6]);
        (plain::Plain.journal_length(&machine(rows, 0).tables, &mut entries, &mut error), entries[0])
    };
    assert_eq!(length(&[jump(L), jump_when(L, A, 0), jump_unless(L, A, 0), label(L), HALT]), (0, 10));
    assert_eq!(length(&countdown(9)), (0, 12));
    assert_eq!(length(&[jump(L)]), (20, BLANK));
    assert_eq!(length(&[label(L), jump_when(L, N, 0)]), (21, BLANK));
}
