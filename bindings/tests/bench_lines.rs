//! The ten bench lines of document 01, the third and the fourth as 02 has them, through the wrapper.
mod bench;

use bench::*;
use mugwortlatch::{
    check, flattened, BinaryOperator, Code, FrameOperator, Instruction, Node, Refusal, Spot, Tables, TypeError,
    TypeErrorKind,
};

fn type_error(row: bench::Row) -> TypeError {
    error_of(check(&bench(&[row])))
}

fn error_of(answer: Result<(), Refusal>) -> TypeError {
    match answer {
        Err(Refusal::TypeError(error)) => error,
        other => panic!("{other:?}"),
    }
}

/// The error's kind, spot and src spot; all bench lines fail in row 0.
fn told(error: TypeError) -> (TypeErrorKind, Spot, Option<Spot>) {
    assert_eq!(error.row, 0);
    (error.kind, error.spot, error.src_spot)
}

#[test]
fn empty_program_passes_and_ends() {
    assert_eq!(check(&bench(&[])), Ok(()));
    assert_eq!(session(bench(&[]), 4, |session| session.forward(&[])), Ok(Err(Refusal::AtEnd)));
}

#[test]
fn add_to_a_bit() {
    let error = type_error(add(at(A, 0), 1.5));
    let kind = TypeErrorKind::DataType { dst: Code::Bit, src: Code::RealLiteral };
    assert_eq!(told(error), (kind, Spot::First, Some(Spot::Source)));
    assert_eq!(error.to_string(), "type error 2 in row 0: the first operand is BIT, the source is a real literal");
    let error = type_error(add(at(A, 0), 1));
    let kind = TypeErrorKind::Operand { found: Code::Bit, required: Code::RealOrIntegral };
    assert_eq!(told(error), (kind, Spot::First, None));
    let words = "type error 4 in row 0: the first operand is BIT, where REAL or INTEGER is required";
    assert_eq!(error.to_string(), words);
    let refused = Refusal::TypeError(error).to_string();
    assert_eq!(refused, format!("refused 5: the program has a type error; {words}"));
}

#[test]
fn store_of_an_undeclared_source_names_it() {
    let error = type_error(store(N, at(N, 0), at(Q, 0)));
    assert_eq!(told(error), (TypeErrorKind::Undefined, Spot::Source, None));
    assert_eq!(error.to_string(), "type error 1 in row 0: the source is not declared");
}

#[test]
fn move_of_a_literal_past_an_octet() {
    let left = session(bench(&[mov(at(O, 0), 300)]), 4, |session| {
        assert_eq!(tried(session, &[]), Err(Refusal::UnfitLiteral));
        session.cell(at(O, 0)).unwrap().to_string()
    });
    assert_eq!(left.unwrap(), "OCTET 0");
}

#[test]
fn division_truncates() {
    let left = session(bench(&[mov(at(N, 0), -7), divide(at(N, 0), 2)]), 8, |session| {
        steps(session, 2);
        session.cell(at(N, 0)).unwrap().to_string()
    });
    assert_eq!(left.unwrap(), "INTEGER -3");
}

#[test]
fn shifts_of_an_octet() {
    let shifted = |operator, count| {
        session(bench(&[mov(at(O, 0), 128), logic(operator, at(O, 0), count)]), 8, |session| {
            steps(session, 1);
            session.forward(&[]).map(|_| word(session, at(O, 0)))
        })
        .unwrap()
    };
    assert_eq!(shifted(BinaryOperator::Ashr, 1), Ok(192));
    assert_eq!(shifted(BinaryOperator::Shl, 8), Ok(0));
    assert_eq!(shifted(BinaryOperator::Shl, -1), Err(Refusal::NegativeShiftCount));
}

#[test]
fn imaginary_parts() {
    let row = Instruction::Frame { operator: FrameOperator::SetFrequency, first_node: 0, node_count: 1 }.row();
    let verdict = |imaginary| {
        let nodes = [Node::Number(0.0, f64::from_bits(imaginary)).row()];
        check(&Tables { nodes: flattened(&nodes), ..bench(&[row]) })
    };
    assert_eq!(verdict(0x3CB0_0000_0000_0000), Ok(()));
    let error = error_of(verdict(0x3CB0_0000_0000_0001));
    assert_eq!(told(error), (TypeErrorKind::RealRequired { found: Code::Imaginary }, Spot::Node(0), None));
    let words = "node 0 of the expression is an imaginary number, where a real value is required";
    assert_eq!(error.to_string(), format!("type error 3 in row 0: {words}"));
}

#[test]
fn load_by_an_index() {
    let loaded = |index| {
        let load = Instruction::Load { destination: at(R, 0), source: R, offset: at(N, 0) }.row();
        session(bench(&[mov(at(N, 0), index), load]), 8, |session| {
            steps(session, 1);
            session.forward(&[]).map(|position| position.done)
        })
        .unwrap()
    };
    assert_eq!(loaded(1), Ok(2));
    assert_eq!(loaded(2), Err(Refusal::IndexPastLength));
}

#[test]
fn exchange_with_itself() {
    let row = Instruction::Exchange { left: at(N, 0), right: at(N, 0) }.row();
    let done = session(bench(&[row]), 4, |session| {
        let before = session.memory().to_vec();
        steps(session, 1);
        assert_eq!(session.memory(), before);
        position(session)
    });
    assert_eq!(done, Ok((1, 1, 3)));
}

#[test]
fn journal_of_two() {
    let rows = [mov(at(N, 0), 1), mov(at(N, 0), 2)];
    let left = session(bench(&rows), 2, |session| {
        steps(session, 1);
        assert_eq!(session.forward(&[]), Err(Refusal::JournalFull));
        assert!(session.back().is_ok());
        assert_eq!(position(session), (0, 0, 0));
        steps(session, 1);
        word(session, at(N, 0))
    });
    assert_eq!(left, Ok(1));
}
