//! How long a journal to lend: what is counted for each family; sessions with exactly so many entries and with one less;
//! a sum above the longest journal; every refusal.
mod bench;

use bench::*;
use mugwortlatch::{
    check, journal_length, raw, sizes, BinaryOperator, ComparisonOperator, Extern, FrameOperator, Instruction, Kind,
    Parameter, Refusal, Reply, Session, Shape, Tables, UnaryOperator,
};

const F: u64 = 20;
/// EXTERN f : (5 : mut INTEGER)
static EXTERNS: [u64; 4] = Extern { name: F, return_kind: None, first_parameter: 0, parameter_count: 1 }.row();
static PARAMETERS: [u64; 5] = Parameter { name: 5, mutable: true, shape: Shape::Scalar, kind: Kind::Integer }.row();
/// n[2] for f's parameter; r[0], which does not fit it.
static ARGUMENTS: [u64; 6] = [1, N, 2, 1, R, 0];
/// The expression pi.
static NODES: [u64; 3] = [4, 0, 0];

/// What lent words hold before a call.
const BLANK: u64 = 0x5EED;

fn tables(instructions: &[Row]) -> Tables<'_> {
    Tables { externs: &EXTERNS, parameters: &PARAMETERS, arguments: &ARGUMENTS, nodes: &NODES, ..bench(instructions) }
}

/// A row of every family that is stepped and may use all that is counted for it, and that number.
fn families() -> [(Row, usize); 12] {
    let (n, equal) = (at(N, 0), ComparisonOperator::Equal);
    [
        (add(n, 1), 2),
        (Instruction::Comparison { operator: equal, destination: at(A, 0), lhs: n, rhs: 1.into() }.row(), 2),
        (logic(BinaryOperator::And, at(O, 0), 1), 2),
        (Instruction::Unary { operator: UnaryOperator::Not, operand: at(A, 0) }.row(), 2),
        (mov(at(R, 0), 1.5), 2),
        (Instruction::Exchange { left: n, right: n }.row(), 3),
        (Instruction::Load { destination: n, source: N, offset: at(N, 1) }.row(), 2),
        (store(N, at(N, 1), 7), 2),
        (Instruction::Frame { operator: FrameOperator::SetPhase, first_node: 0, node_count: 1 }.row(), 1),
        (call(F, 0, 1), 65),
        (Instruction::Nop.row(), 1),
        (convert(at(R, 1), n), 2),
    ]
}

/// A forward; where it comes to a CALL, with a reply of so many rows.
fn press(session: &mut Session, reply_rows: usize) -> Result<(), Refusal> {
    let row = session.position().row as usize * sizes::INSTRUCTION_WIDTH;
    let called = session.tables().instructions.get(row) == Some(&9);
    let reply = Reply { argument: 0, offset: 0, kind: Kind::Integer, word: 9 }.row();
    session.forward(&vec![reply; if called { reply_rows } else { 0 }]).map(|_| ())
}

/// Every row with the longest replies, in a journal of so many entries: the entries used, or the first refusal.
fn stepped(instructions: &[Row], entries: usize) -> Result<u64, Refusal> {
    session(tables(instructions), entries, |session| {
        instructions.iter().try_for_each(|_| press(session, sizes::REPLY_LIMIT))?;
        assert_eq!(session.forward(&[]), Err(Refusal::AtEnd));
        Ok(session.position().used)
    })?
}

/// The longest replies use all of the sum, and with an entry less the last step is refused.
fn exactly(instructions: &[Row], sum: usize) {
    assert_eq!(journal_length(&tables(instructions)), Ok(sum));
    assert_eq!(stepped(instructions, sum), Ok(sum as u64));
    assert_eq!(stepped(instructions, sum - 1), Err(Refusal::JournalFull));
}

#[test]
fn each_family_and_all() {
    families().into_iter().for_each(|(row, entries)| exactly(&[row], entries));
    exactly(&families().map(|(row, _)| row), 86);
    assert_eq!(journal_length(&tables(&[])), Ok(0));
    assert_eq!(journal_length(&Tables::default()), Ok(0));
}

/// A jump, LABEL and HALT are counted 2 and use 1.
#[test]
fn jumps() {
    let rows = [jump_when(5, at(A, 0)), jump(5), jump_unless(5, at(A, 0)), label(5), Instruction::Halt.row()];
    assert_eq!(journal_length(&tables(&rows)), Ok(10));
    let used = session(tables(&rows), 10, |session| {
        steps(session, 4);
        position(session)
    });
    assert_eq!(used, Ok((5, 4, 4)));
}

/// Each list of seven keys: back, or forward with a reply of none, one or 64 rows.
#[test]
fn no_order_of_keys_fills_it() {
    let rows = [mov(at(N, 0), 1), call(F, 0, 1), Instruction::Exchange { left: at(N, 0), right: at(N, 2) }.row()];
    let sum = journal_length(&tables(&rows)).unwrap();
    let key = |session: &mut Session, key| match key {
        0 => session.back().map(|_| ()),
        _ => press(session, [0, 1, sizes::REPLY_LIMIT][key - 1]),
    };
    for keys in 0..4usize.pow(7) {
        let run = session(tables(&rows), sum, |session| {
            for turn in 0..7 {
                let answer = key(session, keys / 4usize.pow(turn) % 4);
                assert!(matches!(answer, Ok(()) | Err(Refusal::AtEnd | Refusal::NothingToTakeBack)), "{answer:?}");
                assert!(session.position().used <= sum as u64);
            }
        });
        assert_eq!(run, Ok(()));
    }
}

#[test]
fn above_the_longest_journal() {
    let calls = [call(F, 0, 1); sizes::INSTRUCTION_LIMIT];
    assert_eq!(journal_length(&tables(&calls)), Ok(33_280));
    assert_eq!(journal_length(&tables(&calls[..31])), Ok(2_015));
    assert_eq!(journal_length(&tables(&calls[..32])), Ok(2_080));
    assert_eq!(stepped(&calls[..32], 2_080), Err(Refusal::BufferSize));
    let used = session(tables(&calls[..32]), sizes::ENTRY_LIMIT, |session| {
        (0..31).for_each(|_| assert_eq!(press(session, sizes::REPLY_LIMIT), Ok(())));
        assert_eq!(press(session, 33), Err(Refusal::JournalFull));
        assert_eq!(press(session, 32), Ok(()));
        session.position().used
    });
    assert_eq!(used, Ok(2_048));
}

/// The number is open's too, and nothing is written but 5's type error, which is check's.
fn refused(tables: Tables) -> u64 {
    let (mut entries, mut error) = ([BLANK], [BLANK; 6]);
    let number = raw::journal_length(&tables, &mut entries, &mut error);
    let refusal = journal_length(&tables).unwrap_err();
    assert_eq!((refusal.number(), session(tables, 4, |_| ())), (number, Err(refusal)));
    match refusal {
        Refusal::TypeError(_) => assert_eq!(check(&tables), Err(refusal)),
        _ => assert_eq!(error, [BLANK; 6]),
    }
    assert_eq!(entries, [BLANK]);
    number
}

#[test]
fn refusals() {
    let (mistyped, other) = (add(at(A, 0), 1), Instruction::AnyOther.row());
    let (absent, count, unfit) = (call(Q, 0, 1), call(F, 0, 2), call(F, 1, 1));
    let with_regions = |regions, rows| Tables { regions, ..tables(rows) };
    assert_eq!(refused(with_regions(&[A, 4], &[])), 1);
    assert_eq!(refused(with_regions(&[A, 4, 1], &[])), 2);
    assert_eq!(refused(with_regions(&[A, 0, 4_096, A, 1, 1], &[])), 3);
    assert_eq!(refused(with_regions(&[A, 0, 4_097], &[mistyped])), 10);
    assert_eq!(refused(tables(&[other, mistyped])), 5);
    assert_eq!(refused(tables(&[absent, other])), 9);
    assert_eq!(refused(tables(&[absent, jump(5)])), 20);
    assert_eq!(refused(tables(&[convert(at(N, 0), at(N, 1)), label(5), jump_when(5, at(N, 0))])), 21);
    assert_eq!(refused(tables(&[absent, convert(at(R, 0), at(Q, 0))])), 22);
    assert_eq!(refused(tables(&[absent, unfit])), 6);
    assert_eq!(refused(tables(&[count, absent])), 7);
    assert_eq!(refused(tables(&[unfit, absent])), 8);
}

/// On 0 the error is left alone.
#[test]
fn accepted() {
    let (mut entries, mut error) = ([BLANK], [BLANK; 6]);
    assert_eq!(raw::journal_length(&tables(&[mov(at(N, 0), 1)]), &mut entries, &mut error), 0);
    assert_eq!((entries, error), ([2], [BLANK; 6]));
}
