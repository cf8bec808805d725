//! 02's run key by hand, on the plain machine: its stops and their order, and that a run is its forwards.
mod machine;

use machine::*;

const L: u64 = 50;
const ALLOWANCE: u64 = 0;
const END: u64 = 1;
const BEFORE_CALL: u64 = 2;
const REFUSAL: u64 = 3;

const ZERO_DIVISOR: [u64; 9] = [0, 2, N, 0, 0, 0, 0, 0, 0];

/// What a run of an opened program answers, and that so many forwards leave the same.
fn run(machine: &mut Machine, allowance: u64) -> [u64; 3] {
    let mut forwards = machine.clone();
    let (number, ran) = machine.run(allowance);
    assert_eq!(number, 0);
    forwards.rows(ran[0] as usize);
    assert_eq!(*machine, forwards);
    ran
}

fn ran(rows: &[[u64; 9]], allowance: u64) -> [u64; 3] {
    run(&mut opened(rows), allowance)
}

#[test]
fn each_stop() {
    assert_eq!(ran(&[NOP; 5], 3), [3, ALLOWANCE, 0]);
    assert_eq!(ran(&[NOP; 5], 6), [5, END, 0]);
    assert_eq!(ran(&[NOP, NOP, CALL, NOP], 9), [2, BEFORE_CALL, 0]);
    assert_eq!(ran(&[NOP, ZERO_DIVISOR, NOP], 9), [1, REFUSAL, 15]);
    assert_eq!(ran(&[NOP, HALT, ZERO_DIVISOR], u64::MAX), [2, END, 0]);
    assert_eq!(ran(&[], 1), [0, END, 0]);
}

/// "Before each step, come allowance, end, CALL, refusal."
#[test]
fn the_order_of_stops() {
    assert_eq!(ran(&[], 0), [0, ALLOWANCE, 0]);
    assert_eq!(ran(&[NOP; 5], 5), [5, ALLOWANCE, 0]);
    assert_eq!(ran(&[NOP, CALL], 1), [1, ALLOWANCE, 0]);
    assert_eq!(ran(&[CALL], 0), [0, ALLOWANCE, 0]);
    assert_eq!(ran(&[NOP, ZERO_DIVISOR], 1), [1, ALLOWANCE, 0]);
    // The end is no refusal 11, and a CALL that would be refused is still a CALL.
    let mut full = machine(&[CALL], 0);
    assert_eq!((full.open(), full.run(1)), (0, (0, [0, BEFORE_CALL, 0])));
    full.position = [1, 0, 0];
    assert_eq!(full.run(1), (0, [0, END, 0]));
}

#[test]
fn an_allowance_of_0_changes_nothing() {
    for rows in [&[NOP][..], &[CALL], &[ZERO_DIVISOR], &[]] {
        let mut machine = opened(rows);
        let before = machine.clone();
        assert_eq!((machine.run(0), &machine), ((0, [0, ALLOWANCE, 0]), &before));
    }
}

#[test]
fn loops() {
    assert_eq!(ran(&countdown(3), 100), [14, END, 0]);
    assert_eq!(ran(&countdown(3), 14), [14, ALLOWANCE, 0]);
    assert_eq!(ran(&countdown(3), 13), [13, ALLOWANCE, 0]);
    // Every step uses an entry, so a run ends within them.
    assert_eq!(ran(&[label(L), jump(L)], u64::MAX), [64, REFUSAL, 13]);
    let mut longest = machine(&[label(L), jump(L)], 2048);
    assert_eq!(longest.open(), 0);
    assert_eq!(run(&mut longest, 2047), [2047, ALLOWANCE, 0]);
    assert_eq!(run(&mut longest, 2), [1, REFUSAL, 13]);
    assert_eq!(longest.position, [0, 2048, 2048]);
}

/// A refused step leaves the steps before it; each number that can stop a run.
#[test]
fn refusals_that_stop() {
    let negative_shift = [2, 3, N, 0, 0, 0, 0, u64::MAX, 0];
    let past = [4, 0, N, 3, 0, 0, 0, 1, 0];
    assert_eq!(ran(&[move_literal(N, 1), negative_shift], 9), [1, REFUSAL, 16]);
    assert_eq!(ran(&[move_literal(N, 1), past], 9), [1, REFUSAL, 14]);
    let unopened = |rows: &[[u64; 9]]| machine(rows, 9).run(9);
    assert_eq!(unopened(&[NOP, OTHER]), (0, [1, REFUSAL, 9]));
    assert_eq!(unopened(&[NOP, [4, 0, UNDECLARED, 0, 0, 0, 0, 1, 0]]), (0, [1, REFUSAL, 18]));
    assert_eq!(unopened(&[NOP, label(L), label(L)]), (0, [0, REFUSAL, 20]));
    assert_eq!(unopened(&[OTHER, jump(L)]), (0, [0, REFUSAL, 9]));
}

/// Unfit labels are a step's refusal alone: not with allowance 0, not at the end, not before a CALL.
#[test]
fn unfit_labels() {
    let at = |row, allowance| {
        let mut machine = machine(&[CALL, label(L), label(L)], 9);
        machine.position = [row, 0, 0];
        machine.run(allowance)
    };
    assert_eq!(at(1, 1), (0, [0, REFUSAL, 20]));
    assert_eq!(at(1, 0), (0, [0, ALLOWANCE, 0]));
    assert_eq!(at(3, 1), (0, [0, END, 0]));
    assert_eq!(at(0, 1), (0, [0, BEFORE_CALL, 0]));
}

/// Forward's looks up to 19, with an allowance of 0 too; nothing is written.
#[test]
fn its_own_refusals() {
    let refused = |change: fn(&mut Machine)| {
        let mut machine = machine(&[OTHER], 4);
        change(&mut machine);
        let before = machine.clone();
        let (number, ran) = machine.run(0);
        assert_eq!((ran, &machine, before.clone().run(9)), ([BLANK; 3], &before, (number, [BLANK; 3])));
        number
    };
    assert_eq!(refused(|m| m.tables.nodes.push(0)), 1);
    assert_eq!(refused(|m| m.tables.instructions[0] = 16), 2);
    assert_eq!(refused(|m| m.tables.regions[3] = A), 3);
    assert_eq!(refused(|m| m.tables.regions[2] = 4096), 10);
    assert_eq!(refused(|m| m.memory.truncate(15)), 4);
    assert_eq!(refused(|m| m.journal.push(0)), 4);
    assert_eq!(refused(|m| m.position = [2, 0, 0]), 19);
    assert_eq!(refused(|m| m.position = [0, 1, 0]), 19);
}

/// A run goes on where another stopped, and back takes a run's steps back one by one.
#[test]
fn on_and_back() {
    let mut machine = opened(&[move_literal(N, 4), CALL, move_literal(N, 6)]);
    assert_eq!(run(&mut machine, 9), [1, BEFORE_CALL, 0]);
    assert_eq!((machine.forward(), run(&mut machine, 9)), (0, [1, END, 0]));
    assert_eq!((machine.position, machine.cell(N_WORD)), ([3, 3, 5], [1, 6]));
    assert_eq!((machine.back(), machine.back(), machine.cell(N_WORD)), (0, 0, [1, 4]));
    assert_eq!((machine.back(), machine.position, machine.back()), (0, [0; 3], 12));
}
