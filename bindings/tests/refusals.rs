//! Every refusal of open, forward, back and run, each by the smallest input at hand, and that it changes nothing.
mod bench;

use bench::*;
use mugwortlatch::{
    check, flattened, raw, sizes, BinaryOperator, Extern, Instruction, Kind, Mender, Parameter, Refusal, Reply,
    Session, Shape, Tables, UnresolvedCallArgument,
};

fn opened(tables: Tables) -> u64 {
    number(session(tables, 4, |_| ()))
}

fn number<T>(answer: Result<T, Refusal>) -> u64 {
    answer.err().map_or(0, Refusal::number)
}

fn forwarded(row: Row, reply: &[[u64; sizes::REPLY_WIDTH]]) -> u64 {
    session(bench(&[row]), 16, |session| number(tried(session, reply))).unwrap()
}

/// An extern of one mutable INTEGER parameter of that shape, no return.
fn taking(shape: Shape) -> ([[u64; 4]; 1], [[u64; 5]; 1]) {
    let parameter = Parameter { name: 5, mutable: true, shape, kind: Kind::Integer };
    ([Extern { name: 20, return_kind: None, first_parameter: 0, parameter_count: 1 }.row()], [parameter.row()])
}

#[test]
fn loader() {
    let tables = bench(&[]);
    assert_eq!(opened(Tables { regions: &tables.regions[1..], ..tables }), 1);
    assert_eq!(opened(bench(&[Instruction::Nop.row(); sizes::INSTRUCTION_LIMIT + 1])), 1);
    assert_eq!(opened(Tables { regions: &[A, 4, 1], ..tables }), 2);
    assert_eq!(opened(Tables { regions: &[A, 0, 1, A, 1, 1], ..tables }), 3);
    let open = |memory: usize, journal: usize| {
        let (mut memory, mut journal) = (vec![0; memory], vec![0; journal]);
        number(Session::open(tables, &mut memory, &mut journal))
    };
    assert_eq!(open(CELLS * sizes::CELL_WIDTH - 1, 0), 4);
    assert_eq!(open(CELLS * sizes::CELL_WIDTH, 2), 4);
    assert_eq!(open(CELLS * sizes::CELL_WIDTH, sizes::JOURNAL_WORDS + sizes::ENTRY_WIDTH), 4);
    assert_eq!(open(sizes::MEMORY_WORDS, sizes::JOURNAL_WORDS), 0);
}

#[test]
fn author() {
    assert_eq!(opened(bench(&[add(at(A, 0), 1)])), 5);
    assert_eq!(opened(bench(&[call(Q, 0, 0)])), 6);
    let (externs, parameters) = taking(Shape::Scalar);
    let with = |arguments: &[[u64; 3]]| {
        opened(Tables {
            externs: flattened(&externs),
            parameters: flattened(&parameters),
            arguments: flattened(arguments),
            ..bench(&[call(20, 0, arguments.len() as u64)])
        })
    };
    assert_eq!(with(&[]), 7);
    assert_eq!(with(&[UnresolvedCallArgument::Reference(R, 0).row()]), 8);
    assert_eq!(with(&[UnresolvedCallArgument::Reference(N, 0).row()]), 0);
    assert_eq!(opened(bench(&[Instruction::AnyOther.row()])), 9);
    assert_eq!(check(&bench(&[Instruction::AnyOther.row()])), Ok(()));
    assert_eq!(opened(Tables { regions: &[A, 0, 4_097], ..Tables::default() }), 10);
}

/// 20 after 9, 21 after 20 and before 6; the check passes both.
#[test]
fn author_of_jumps() {
    let (twice, absent) = ([label(5), label(5)], [jump(5), label(6)]);
    let conditions = [at(N, 0), at(Q, 0)].map(|condition| [label(5), jump_when(5, condition)]);
    assert_eq!(opened(bench(&twice)), 20);
    assert_eq!(opened(bench(&absent)), 20);
    conditions.iter().for_each(|rows| assert_eq!((opened(bench(rows)), check(&bench(rows))), (21, Ok(()))));
    assert_eq!(opened(bench(&[label(5), label(5), Instruction::AnyOther.row()])), 9);
    assert_eq!(opened(bench(&[jump_unless(5, at(N, 0))])), 20);
    assert_eq!(opened(bench(&[call(Q, 0, 0), label(5), jump_unless(5, at(N, 0))])), 21);
    assert_eq!(opened(bench(&[call(Q, 0, 0), label(5), jump_unless(5, at(A, 0))])), 6);
}

/// 22 after 21 and before 6: every pair of kinds, a name that is not declared; the check passes them.
#[test]
fn author_of_conversions() {
    let names = [A, N, O, R, Q];
    for (to, from) in names.iter().flat_map(|&to| names.map(|from| (to, from))) {
        let rows = [convert(at(to, 0), at(from, 0))];
        let fits = [(R, N), (N, R)].contains(&(to, from));
        assert_eq!((opened(bench(&rows)), check(&bench(&rows))), (if fits { 0 } else { 22 }, Ok(())));
    }
    let unfit = convert(at(N, 0), at(N, 1));
    assert_eq!(opened(bench(&[unfit, label(5), jump_when(5, at(N, 0))])), 21);
    assert_eq!(opened(bench(&[call(Q, 0, 0), unfit])), 22);
    assert_eq!(opened(bench(&[call(Q, 0, 0), convert(at(N, 0), at(R, 1))])), 6);
}

/// 24 after 14 and before 13; the check and open pass it.
#[test]
fn author_of_literals() {
    let rows = [mov(at(O, 0), 256)];
    assert_eq!((opened(bench(&rows)), check(&bench(&rows))), (0, Ok(())));
    assert_eq!(forwarded(rows[0], &[]), 24);
    assert_eq!(forwarded(store(A, at(N, 0), 2), &[]), 24);
    assert_eq!(forwarded(mov(at(O, 1), 256), &[]), 14);
    let past = session(bench(&[mov(at(N, 0), 1), store(O, at(N, 0), 256)]), 16, |session| {
        steps(session, 1);
        number(tried(session, &[]))
    });
    assert_eq!(past, Ok(14));
    let full = |literal: i64| session(bench(&[mov(at(O, 0), literal)]), 1, |session| number(tried(session, &[])));
    assert_eq!((full(256), full(255)), (Ok(24), Ok(13)));
}

#[test]
fn student() {
    let nop = [Instruction::Nop.row()];
    let at_the_end = session(bench(&nop), 16, |session| {
        steps(session, 1);
        number(tried(session, &[]))
    });
    assert_eq!(at_the_end, Ok(11));
    assert_eq!(session(bench(&nop), 4, |session| number(session.back())), Ok(12));
    assert_eq!(session(bench(&nop), 0, |session| number(tried(session, &[]))), Ok(13));
}

#[test]
fn running_program() {
    assert_eq!(forwarded(mov(at(N, 3), 1), &[]), 14);
    assert_eq!(forwarded(divide(at(N, 0), 0), &[]), 15);
    assert_eq!(forwarded(logic(BinaryOperator::Shl, at(N, 0), -1), &[]), 16);
    assert_eq!(forwarded(convert(at(N, 0), at(R, 2)), &[]), 14);
}

#[test]
fn extern_routine() {
    assert_eq!(forwarded(Instruction::Nop.row(), &[[0; 4]]), 17);
    let (externs, parameters) = taking(Shape::VariableVector);
    let arguments = UnresolvedCallArgument::Identifier(N).row();
    let rows = [call(20, 0, 1)];
    let tables = Tables {
        externs: flattened(&externs),
        parameters: flattened(&parameters),
        arguments: &arguments,
        ..bench(&rows)
    };
    let reply = |offset, kind| Reply { argument: 0, offset, kind, word: 9 }.row();
    let last = session(tables, 70, |session| {
        assert_eq!(number(tried(session, &[reply(3, Kind::Integer)])), 17);
        assert_eq!(number(tried(session, &[reply(2, Kind::Octet)])), 17);
        assert_eq!(number(tried(session, &[reply(2, Kind::Integer); sizes::REPLY_LIMIT + 1])), 17);
        assert_eq!(number(tried(session, &[reply(2, Kind::Integer)])), 0);
        assert_eq!((position(session), word(session, at(N, 2))), ((1, 1, 2), 9));
        assert!(session.back().is_ok());
        assert_eq!((position(session), word(session, at(N, 2))), ((0, 0, 0), 0));
        number(tried(session, &[reply(2, Kind::Integer); sizes::REPLY_LIMIT]))
    });
    assert_eq!(last, Ok(0));
}

/// A session keeps foreign writers out; these come by the raw calls.
#[test]
fn foreign_writer() {
    let rows = [logic(BinaryOperator::Shl, at(O, 0), 1)];
    let tables = bench(&rows);
    let (mut memory, mut journal, mut position) = ([0; CELLS * 2], [0; 12], [9; 3]);
    assert_eq!(raw::open(&tables, &mut memory, &journal, &mut position, &mut [0; 6]), 0);
    assert_eq!(position, [0, 0, 0]);
    memory[tables.cell_of(at(O, 0)).unwrap() * 2 + 1] = 256;
    assert_eq!(raw::forward(&tables, &mut memory, &mut journal, &mut position, &[]), 18);
    for mut foreign in [[2, 0, 0], [0, 1, 0], [0, 0, 5]] {
        assert_eq!(raw::forward(&tables, &mut memory, &mut journal, &mut foreign, &[]), 19);
        assert_eq!(raw::back(&tables, &mut memory, &journal, &mut foreign), 19);
        let mut ran = [9; 3];
        assert_eq!(raw::run(&tables, &mut memory, &mut journal, &mut foreign, 1, &mut ran), 19);
        assert_eq!(ran, [9; 3]);
    }
    // A closing entry whose row the program does not have.
    journal[1] = 1;
    assert_eq!(raw::back(&tables, &mut memory, &journal, &mut [1, 1, 1]), 19);
    journal[1] = 0;
    assert_eq!(raw::back(&tables, &mut memory, &journal, &mut [1, 1, 1]), 0);
}

/// Run's own refusals are forward's up to 19, and come before the allowance.
#[test]
fn run() {
    let refused = |tables: Tables, memory: usize, journal: usize| {
        let (mut memory, mut journal, mut position, mut ran) = (vec![7; memory], vec![7; journal], [0; 3], [9; 3]);
        let number = raw::run(&tables, &mut memory, &mut journal, &mut position, 0, &mut ran);
        assert_eq!((position, ran), ([0; 3], if number == 0 { [0; 3] } else { [9; 3] }));
        number
    };
    let (good, words) = (bench(&[]), CELLS * sizes::CELL_WIDTH);
    assert_eq!(refused(Tables { regions: &good.regions[1..], ..good }, 0, 2), 1);
    assert_eq!(refused(Tables { regions: &[A, 4, 4_097], ..good }, 0, 2), 2);
    assert_eq!(refused(Tables { regions: &[A, 0, 4_097, A, 1, 1], ..good }, 0, 2), 3);
    assert_eq!(refused(Tables { regions: &[A, 0, 4_097], ..good }, 0, 2), 10);
    assert_eq!(refused(good, words - 1, 3), 4);
    assert_eq!(refused(good, words, 2), 4);
    assert_eq!(refused(good, words, 3), 0);
}

#[test]
fn causes_and_menders() {
    assert_eq!(Refusal::JournalFull.mender(), Mender::Student);
    assert_eq!(Refusal::ForeignPosition.mender(), Mender::ForeignWriter);
    let authors = [Refusal::UnfitLabels, Refusal::ConditionNotBit, Refusal::UnfitConversion, Refusal::UnfitLiteral];
    assert_eq!(authors.map(Refusal::mender), [Mender::Author; 4]);
    assert_eq!(Refusal::OutsideInteger.mender(), Mender::RunningProgram);
    assert_eq!(Refusal::AtEnd.to_string(), "refused 11: the program is at its end");
    assert_eq!(Refusal::Unknown(99).to_string(), "refused 99: the cause is unknown to this version");
    assert_eq!(Refusal::Unknown(99).mender(), Mender::Unknown);
}
