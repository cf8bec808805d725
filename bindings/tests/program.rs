//! A program collected row by row, every table in use.
#![cfg(feature = "std")]
use mugwortlatch::{
    check, resolve, sizes, FrameOperator, Instruction, Kind, MemoryReference, Node, Parameter, Program, Refusal,
    Region, Reply, Session, Shape, UnresolvedCallArgument, Walk,
};

const N: u64 = 1;
const R: u64 = 2;

fn program() -> Program {
    let mut program = Program::new();
    program.region(Region { name: N, kind: Kind::Integer, length: 2 });
    program.region(Region { name: R, kind: Kind::Real, length: 2 });
    let real = Parameter { name: 5, mutable: false, shape: Shape::Scalar, kind: Kind::Real };
    let vector = Parameter { name: 6, mutable: true, shape: Shape::FixedVector(2), kind: Kind::Real };
    program.extern_routine(30, None, &[real]);
    program.extern_routine(31, Some(Kind::Integer), &[real, vector]);
    program.extern_routine(32, None, &[]);
    let address = |index| Node::Address(MemoryReference { name: R, index });
    program.frame(FrameOperator::SetPhase, &[Node::Prefix, address(0)]);
    program.frame(FrameOperator::SetScale, &[Node::Infix, address(1), Node::Pi]);
    program.call(30, &[UnresolvedCallArgument::Immediate(0.5, 0.0)]);
    let (n, real) = (UnresolvedCallArgument::Reference(N, 1), UnresolvedCallArgument::Reference(R, 1));
    program.call(31, &[n, real, UnresolvedCallArgument::Identifier(R)]);
    program.call(32, &[]);
    program
}

#[test]
fn rows_are_counted() {
    let program = program();
    let tables = program.tables();
    assert_eq!(check(&tables), Ok(()));
    let rows: Vec<&[u64]> = tables.instructions.chunks(sizes::INSTRUCTION_WIDTH).map(|row| &row[..5]).collect();
    let expected: [&[u64]; 5] =
        [&[8, 1, 0, 2, 0], &[8, 2, 2, 3, 0], &[9, 0, 30, 0, 1], &[9, 0, 31, 1, 3], &[9, 0, 32, 4, 0]];
    assert_eq!(rows, expected);
    assert_eq!(tables.externs, [30, 4, 0, 1, 31, 1, 1, 2, 32, 4, 3, 0]);
    let mut walk = Walk::new();
    let walked = walk.memory_references(tables.nodes, 2, 3).unwrap();
    assert!(walked.eq([MemoryReference { name: R, index: 1 }]));
}

#[test]
fn stepped() {
    let program = program();
    let (mut memory, mut journal) = (vec![0; sizes::MEMORY_WORDS], vec![0; sizes::JOURNAL_WORDS]);
    let mut session = Session::open(program.tables(), &mut memory, &mut journal).unwrap();
    let mut rows = [0; sizes::RESOLVE_WORDS];
    assert_eq!(resolve(session.tables(), 3, &mut rows).unwrap().len(), 3);
    (0..3).for_each(|_| assert!(session.forward(&[]).is_ok()));
    let reply = [
        Reply { argument: 0, offset: 0, kind: Kind::Integer, word: 8 },
        Reply { argument: 2, offset: 1, kind: Kind::Real, word: 2.5f64.to_bits() },
    ];
    session.forward(&reply.map(Reply::row)).unwrap();
    session.forward(&[]).unwrap();
    assert_eq!(session.forward(&[]), Err(Refusal::AtEnd));
    let cell = |name, index| session.cell(MemoryReference { name, index }).unwrap().to_string();
    assert_eq!([cell(N, 1), cell(R, 1), cell(N, 0)], ["INTEGER 8", "REAL 2.5", "INTEGER 0"]);
}

#[test]
fn programs_compare_and_grow() {
    let mut other = program();
    assert_eq!(other, program());
    assert_eq!(other.instruction(Instruction::Nop), 5);
    assert_ne!(other, program());
}
