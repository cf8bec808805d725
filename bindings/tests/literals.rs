//! Integer literals put into cells: which of them MOVE and STORE take, 24, and that binary logic takes all.
mod bench;

use bench::*;
use mugwortlatch::{raw, BinaryOperator, Instruction, Kind, Ran, Refusal, Stop};

/// What a MOVE, and a STORE alike, leaves in the region's first cell.
fn put(name: u64, literal: i64) -> Result<u64, Refusal> {
    let stepped =
        |row| session(bench(&[row]), 2, |session| tried(session, &[]).map(|_| word(session, at(name, 0)))).unwrap();
    let moved = stepped(mov(at(name, 0), literal));
    assert_eq!(moved, stepped(store(name, at(N, 2), literal)));
    moved
}

#[test]
fn edges() {
    for literal in [i64::MIN, -256, -1, 0, 1, 2, 255, 256, 300, i64::MAX] {
        let taken = |fits| if fits { Ok(literal as u64) } else { Err(Refusal::UnfitLiteral) };
        assert_eq!(put(A, literal), taken((0..=1).contains(&literal)), "{literal}");
        assert_eq!(put(O, literal), taken((0..=255).contains(&literal)), "{literal}");
        assert_eq!(put(N, literal), taken(true), "{literal}");
    }
}

/// The kind is the cell's, whatever is declared. REAL, and a kind that there is not, have no rule for any literal.
#[test]
fn kind_of_the_cell() {
    let put = |kind: u64, literal: i64| {
        let rows = [mov(at(O, 0), literal)];
        let tables = bench(&rows);
        let cell = 2 * tables.cell_of(at(O, 0)).unwrap();
        let mut memory = [0; CELLS * 2];
        memory[cell] = kind;
        let number = raw::forward(&tables, &mut memory, &mut [0; 6], &mut [0; 3], &[]);
        (number, [memory[cell], memory[cell + 1]])
    };
    let [bit, integer, real] = [Kind::Bit, Kind::Integer, Kind::Real].map(Kind::word);
    assert_eq!([put(bit, 1), put(bit, 2), put(bit, 255)], [(0, [bit, 1]), (24, [bit, 0]), (24, [bit, 0])]);
    assert_eq!([put(integer, 256), put(integer, -1)], [(0, [integer, 256]), (0, [integer, u64::MAX])]);
    for kind in [real, 4, u64::MAX] {
        assert_eq!([put(kind, 1), put(kind, 256)], [(18, [kind, 0]); 2]);
    }
}

#[test]
fn binary_logic() {
    use BinaryOperator::{And, Ior, Xor};
    let left = |name, before: i64, operator, literal: i64| {
        let rows = [mov(at(name, 0), before), logic(operator, at(name, 0), literal)];
        session(bench(&rows), 4, |session| {
            steps(session, 2);
            word(session, at(name, 0))
        })
        .unwrap()
    };
    assert_eq!([left(O, 255, And, 300), left(O, 0, Ior, 300), left(O, 0, Xor, -1)], [44, 44, 255]);
    assert_eq!([left(A, 1, And, 2), left(A, 0, Ior, 2), left(A, 0, Ior, -1)], [0, 0, 1]);
}

/// A run stops at 24 and keeps the steps before it.
#[test]
fn a_run_stops_at_24() {
    let rows = [mov(at(O, 0), 255), store(O, at(N, 0), 256), Instruction::Nop.row()];
    let (ran, octet) = session(bench(&rows), 9, |session| (session.run(9).unwrap(), word(session, at(O, 0)))).unwrap();
    let Ran { steps, stop, .. } = ran;
    assert_eq!((steps, stop, octet), (1, Stop::Refusal(Refusal::UnfitLiteral), 255));
}
