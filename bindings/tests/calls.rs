//! Resolve and access: every form of a resolved row, every argument error, every refusal of theirs.
mod bench;

use bench::*;
use mugwortlatch::{
    access, flattened, resolve, AccessSets, CallArgumentError, CallArgumentResolutionError, Extern, Instruction, Kind,
    Parameter, Refusal, ResolvedCallArgument, Shape, Tables, Unresolved, UnresolvedCallArgument, Vector,
};
use UnresolvedCallArgument::{Identifier, Immediate, Reference};

const F: u64 = 20;
/// EXTERN f : INTEGER (10 : mut INTEGER, 11 : REAL[2], 12 : mut OCTET[], 13 : REAL)
static EXTERNS: [u64; 4] =
    Extern { name: F, return_kind: Some(Kind::Integer), first_parameter: 0, parameter_count: 4 }.row();
static PARAMETERS: [[u64; 5]; 4] = [
    Parameter { name: 10, mutable: true, shape: Shape::Scalar, kind: Kind::Integer }.row(),
    Parameter { name: 11, mutable: false, shape: Shape::FixedVector(2), kind: Kind::Real }.row(),
    Parameter { name: 12, mutable: true, shape: Shape::VariableVector, kind: Kind::Octet }.row(),
    Parameter { name: 13, mutable: false, shape: Shape::Scalar, kind: Kind::Real }.row(),
];
const FITTING: [UnresolvedCallArgument; 5] =
    [Reference(N, 0), Reference(N, 1), Identifier(R), Identifier(O), Immediate(1.5, 0.0)];

fn words(arguments: [UnresolvedCallArgument; 5]) -> Vec<u64> {
    arguments.iter().flat_map(|argument| argument.row()).collect()
}

/// One CALL of that name over these arguments.
fn tables<'a>(arguments: &'a [u64], row: &'a [Row; 1]) -> Tables<'a> {
    Tables { externs: &EXTERNS, parameters: flattened(&PARAMETERS), arguments, ..bench(row) }
}

/// The errors and their words.
fn errors(arguments: [UnresolvedCallArgument; 5]) -> (Vec<CallArgumentError>, String) {
    let (arguments, row, mut rows) = (words(arguments), [call(F, 0, 5)], [0; 35]);
    let unresolved = resolve(&tables(&arguments, &row), 0, &mut rows).unwrap_err();
    assert_eq!(unresolved.refusal().number(), 8);
    let text = unresolved.to_string();
    match unresolved {
        Unresolved::Errors(errors) => (errors.collect(), text),
        Unresolved::Refused(refusal) => panic!("{refusal}"),
    }
}

fn refused(tables: &Tables, row: u64, rows: &mut [u64]) -> u64 {
    resolve(tables, row, rows).unwrap_err().refusal().number()
}

#[test]
fn resolved_rows() {
    let (arguments, row, mut rows) = (words(FITTING), [call(F, 0, 5)], [0; 35]);
    let resolved: Vec<_> = resolve(&tables(&arguments, &row), 0, &mut rows).unwrap().collect();
    let scalar = |index| ResolvedCallArgument::MemoryReference { name: N, index, kind: Kind::Integer, mutable: true };
    let vector =
        |name, kind, length, mutable| ResolvedCallArgument::Vector { name, vector: Vector { kind, length }, mutable };
    let expected = [
        scalar(0),
        scalar(1),
        vector(R, Kind::Real, 2, false),
        vector(O, Kind::Octet, 1, true),
        ResolvedCallArgument::Immediate { real: 1.5, imaginary: 0.0, kind: Kind::Real },
    ];
    assert_eq!(resolved, expected);
}

#[test]
fn argument_errors_in_order() {
    use CallArgumentResolutionError::*;
    let vector = |kind, length| Vector { kind, length };
    let argument = |index, error| CallArgumentError::Argument { index, error };
    let arguments = [Immediate(2.0, 3.5), Reference(Q, 0), Identifier(N), Reference(A, 0), Reference(N, 0)];
    let (found, text) = errors(arguments);
    let expected = [
        CallArgumentError::Return(ReturnArgument { found: Immediate(2.0, 3.5) }),
        argument(0, UndeclaredMemoryReference(Q)),
        argument(1, MismatchedVector { expected: vector(Kind::Real, 2), found: vector(Kind::Integer, 3) }),
        argument(2, InvalidVectorArgument(Reference(A, 0))),
        argument(3, MismatchedScalar { expected: Kind::Real, found: Kind::Integer }),
    ];
    assert_eq!(found, expected);
    let lines = [
        "refused 8: arguments of a CALL do not fit their parameters",
        "the return: 2.0+3.5i is an immediate, and the return needs memory",
        "parameter 0: name 9 is not declared",
        "parameter 1: REAL[2] is expected, and INTEGER[3] given",
        "parameter 2: name 0[0] is no vector",
        "parameter 3: REAL is expected, and INTEGER given",
    ];
    assert_eq!(text, lines.join("; "));
}

#[test]
fn immediate_for_a_mutable_parameter() {
    let mut arguments = FITTING;
    arguments[1] = Immediate(0.0, 0.0);
    let (found, text) = errors(arguments);
    let error = CallArgumentResolutionError::ImmediateArgumentForMutable(10);
    assert_eq!(found, [CallArgumentError::Argument { index: 0, error }]);
    assert!(text.ends_with("; parameter 0: an immediate is given for the mutable parameter of name 10"), "{text}");
}

#[test]
fn refusals_of_resolve_in_order() {
    let (arguments, good) = (words(FITTING), [call(F, 0, 5)]);
    assert_eq!(refused(&tables(&arguments[1..], &good), 0, &mut []), 1);
    assert_eq!(refused(&tables(&arguments, &good), 1, &mut []), 2);
    assert_eq!(refused(&tables(&arguments, &[Instruction::Nop.row()]), 0, &mut []), 2);
    let twice = EXTERNS.repeat(2);
    assert_eq!(refused(&Tables { externs: &twice, ..tables(&arguments, &good) }, 0, &mut []), 3);
    assert_eq!(refused(&tables(&arguments, &[call(Q, 0, 5)]), 0, &mut []), 6);
    assert_eq!(refused(&tables(&arguments, &[call(F, 0, 4)]), 0, &mut []), 7);
    assert_eq!(refused(&tables(&arguments, &good), 0, &mut [0; 34]), 4);
}

#[test]
fn access_sets() {
    let (arguments, row) = (words(FITTING), [call(F, 0, 5)]);
    let (mut reads, mut writes) = ([0; 5], [0; 5]);
    let sets = access(&tables(&arguments, &row), 0, &mut reads, &mut writes);
    assert_eq!(sets, Ok(AccessSets { reads: &[N, O, R], writes: &[N, O] }));
    let mut short = [0; 4];
    assert_eq!(access(&tables(&arguments, &row), 0, &mut short, &mut writes), Err(Refusal::BufferSize));
    let absent = [call(Q, 0, 5)];
    assert_eq!(access(&tables(&arguments, &absent), 0, &mut reads, &mut writes), Err(Refusal::ExternNotFound));
}
