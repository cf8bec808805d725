//! Jumps, LABEL and HALT stepped and run: each stop, and that a run is its forwards.
mod bench;

use bench::*;
use mugwortlatch::{ArithmeticOperator, ComparisonOperator, Instruction, Ran, Refusal, Stop};

const L: u64 = 50;

/// n[0] counted down from so many, in steps of one.
fn countdown(from: i64) -> [Row; 5] {
    let (operator, less) = (ComparisonOperator::GreaterThan, ArithmeticOperator::Subtract);
    [
        mov(at(N, 0), from),
        label(L),
        Instruction::Arithmetic { operator: less, destination: at(N, 0), source: 1.into() }.row(),
        Instruction::Comparison { operator, destination: at(A, 0), lhs: at(N, 0), rhs: 0.into() }.row(),
        jump_when(L, at(A, 0)),
    ]
}

/// The run's answer; so many forwards in a session of its own leave the same.
fn ran(rows: &[Row], entries: usize, allowance: u64) -> (u64, Stop) {
    let (Ran { steps: count, stop, position, .. }, after) =
        session(bench(rows), entries, |session| (session.run(allowance).unwrap(), held(session))).unwrap();
    let forwards = session(bench(rows), entries, |session| {
        steps(session, count as usize);
        held(session)
    });
    assert_eq!((forwards, position), (Ok(after.clone()), after.2));
    (count, stop)
}

#[test]
fn each_stop() {
    let (nop, halt) = (Instruction::Nop.row(), Instruction::Halt.row());
    let refused = |refusal| Stop::Refusal(refusal);
    assert_eq!(ran(&[nop; 4], 9, 3), (3, Stop::Allowance));
    assert_eq!(ran(&[nop; 4], 9, 5), (4, Stop::End));
    assert_eq!(ran(&[nop, halt, nop], 9, u64::MAX), (2, Stop::End));
    assert_eq!(ran(&[nop, divide(at(N, 0), 0)], 9, 5), (1, refused(Refusal::ZeroDivisor)));
    assert_eq!(ran(&[label(L), jump(L)], 9, u64::MAX), (9, refused(Refusal::JournalFull)));
    // Allowance comes first, and the end is no refusal.
    assert_eq!(ran(&[nop; 4], 9, 4), (4, Stop::Allowance));
    assert_eq!(ran(&[], 0, 0), (0, Stop::Allowance));
    assert_eq!(ran(&[], 0, 1), (0, Stop::End));
    assert_eq!(ran(&[nop], 0, 0), (0, Stop::Allowance));
}

#[test]
fn before_a_call() {
    let (externs, rows) = ([20, 4, 0, 0], [Instruction::Nop.row(), call(20, 0, 0), Instruction::Nop.row()]);
    let tables = mugwortlatch::Tables { externs: &externs, ..bench(&rows) };
    let last = session(tables, 9, |session| {
        let first = session.run(9).unwrap();
        assert_eq!((first.steps, first.stop, first.position.row), (1, Stop::Call, 1));
        assert_eq!(session.run(9).map(|ran| (ran.steps, ran.stop)), Ok((0, Stop::Call)));
        steps(session, 1);
        session.run(9).map(|ran| (ran.steps, ran.stop))
    });
    assert_eq!(last, Ok(Ok((1, Stop::End))));
}

#[test]
fn loops() {
    assert_eq!(ran(&countdown(3), 40, 100), (13, Stop::End));
    let back = session(bench(&countdown(3)), 40, |session| {
        assert_eq!(session.run(100).map(|ran| ran.steps), Ok(13));
        assert_eq!((position(session), word(session, at(N, 0))), ((5, 13, 20), 0));
        (0..9).for_each(|_| assert!(session.back().is_ok()));
        (position(session), word(session, at(N, 0)))
    });
    assert_eq!(back, Ok(((4, 4, 7), 2)));
}

#[test]
fn when_on_1_unless_on_0() {
    let led = |jump, bit: i64| {
        let rows = [mov(at(A, 0), bit), jump, Instruction::Nop.row(), label(L)];
        session(bench(&rows), 9, |session| {
            steps(session, 2);
            session.position().row
        })
        .unwrap()
    };
    let (when, unless) = (jump_when(L, at(A, 0)), jump_unless(L, at(A, 0)));
    assert_eq!([led(when, 0), led(when, 1), led(unless, 0), led(unless, 1)], [2, 3, 3, 2]);
    assert_eq!(led(jump(L), 0), 3);
    assert_eq!(led(Instruction::Halt.row(), 0), 4);
}

#[test]
fn stops_in_words() {
    let words = [Stop::Allowance, Stop::End, Stop::Call, Stop::Refusal(Refusal::ZeroDivisor)].map(|s| s.to_string());
    let expected = [
        "the allowance is used up",
        "the program is at its end",
        "the next row is a CALL",
        "the next step is refused 15: an INTEGER is divided by zero",
    ];
    assert_eq!(words, expected);
}
