//! Each builder's words, as `docs/USING.md` has them.
use mugwortlatch::{
    ArithmeticOperator, BinaryOperator, ComparisonOperator, Extern, FrameOperator, Instruction, Kind, MemoryReference,
    Node, Parameter, Region, Reply, Shape, Source, UnaryOperator, UnresolvedCallArgument,
};

const A: MemoryReference = MemoryReference { name: 10, index: 1 };
const B: MemoryReference = MemoryReference { name: 20, index: 2 };
const C: MemoryReference = MemoryReference { name: 30, index: 3 };

#[test]
fn declarations() {
    assert_eq!(Region { name: 7, kind: Kind::Octet, length: 0 }.row(), [7, 2, 0]);
    let routine = Extern { name: 7, return_kind: None, first_parameter: 3, parameter_count: 2 };
    assert_eq!(routine.row(), [7, 4, 3, 2]);
    assert_eq!(Extern { return_kind: Some(Kind::Bit), ..routine }.row(), [7, 0, 3, 2]);
    let parameter = |mutable, shape, kind| Parameter { name: 7, mutable, shape, kind }.row();
    assert_eq!(parameter(true, Shape::Scalar, Kind::Integer), [7, 1, 0, 1, 0]);
    assert_eq!(parameter(false, Shape::FixedVector(9), Kind::Real), [7, 0, 1, 3, 9]);
    assert_eq!(parameter(true, Shape::VariableVector, Kind::Unknown(8)), [7, 1, 2, 8, 0]);
}

#[test]
fn nodes_and_arguments() {
    let bits = |value: f64| value.to_bits();
    assert_eq!(Node::Address(B).row(), [0, 20, 2]);
    assert_eq!(Node::FunctionCall.row(), [1, 0, 0]);
    assert_eq!(Node::Infix.row(), [2, 0, 0]);
    assert_eq!(Node::Number(1.5, -2.0).row(), [3, bits(1.5), bits(-2.0)]);
    assert_eq!(Node::Pi.row(), [4, 0, 0]);
    assert_eq!(Node::Prefix.row(), [5, 0, 0]);
    assert_eq!(Node::Variable(6).row(), [6, 6, 0]);
    assert_eq!(UnresolvedCallArgument::Identifier(5).row(), [0, 5, 0]);
    assert_eq!(UnresolvedCallArgument::from(B).row(), [1, 20, 2]);
    assert_eq!(UnresolvedCallArgument::Immediate(1.5, -2.0).row(), [2, bits(1.5), bits(-2.0)]);
    assert_eq!(Reply { argument: 1, offset: 2, kind: Kind::Real, word: 4 }.row(), [1, 2, 3, 4]);
}

#[test]
fn instructions() {
    use Instruction::*;
    let half = 0.5f64.to_bits();
    let rows = [
        (
            Arithmetic { operator: ArithmeticOperator::Multiply, destination: A, source: 0.5.into() },
            [0, 3, 10, 1, 0, 0, 1, half, 0],
        ),
        (
            Comparison { operator: ComparisonOperator::LessThan, destination: A, lhs: B, rhs: C.into() },
            [1, 4, 10, 1, 20, 2, 2, 30, 3],
        ),
        (
            BinaryLogic { operator: BinaryOperator::Ashr, destination: A, source: Source::IntegerLiteral(-1) },
            [2, 5, 10, 1, 0, 0, 0, u64::MAX, 0],
        ),
        (Unary { operator: UnaryOperator::Not, operand: A }, [3, 1, 10, 1, 0, 0, 3, 0, 0]),
        (Move { destination: A, source: C.into() }, [4, 0, 10, 1, 0, 0, 2, 30, 3]),
        (Exchange { left: A, right: B }, [5, 0, 10, 1, 20, 2, 3, 0, 0]),
        (Load { destination: A, source: 20, offset: C }, [6, 0, 10, 1, 20, 0, 2, 30, 3]),
        (Store { destination: 10, offset: B, source: 7.into() }, [7, 0, 10, 0, 20, 2, 0, 7, 0]),
        (Frame { operator: FrameOperator::ShiftPhase, first_node: 5, node_count: 6 }, [8, 4, 5, 6, 0, 0, 3, 0, 0]),
        (Call { name: 10, first_argument: 5, argument_count: 6 }, [9, 0, 10, 5, 6, 0, 3, 0, 0]),
        (Nop, [10, 0, 0, 0, 0, 0, 3, 0, 0]),
        (AnyOther, [10, 1, 0, 0, 0, 0, 3, 0, 0]),
        (Jump { label: 20 }, [11, 0, 0, 0, 20, 0, 3, 0, 0]),
        (JumpWhen { label: 20, condition: A }, [12, 0, 10, 1, 20, 0, 3, 0, 0]),
        (JumpUnless { label: 20, condition: A }, [13, 0, 10, 1, 20, 0, 3, 0, 0]),
        (Label { label: 20 }, [14, 0, 0, 0, 20, 0, 3, 0, 0]),
        (Halt, [15, 0, 0, 0, 0, 0, 3, 0, 0]),
        (Convert { destination: A, source: C }, [16, 0, 10, 1, 0, 0, 2, 30, 3]),
    ];
    rows.into_iter().for_each(|(instruction, row)| assert_eq!(instruction.row(), row, "{instruction:?}"));
}

#[test]
fn words_and_cases() {
    (0..20).for_each(|word| assert_eq!(Kind::of_word(word).word(), word));
    (0..20).for_each(|word| assert_eq!(FrameOperator::of_word(word).word(), word));
    assert_eq!(Kind::of_word(4), Kind::Unknown(4));
    assert_eq!([Kind::Real.to_string(), Kind::Unknown(4).to_string()], ["REAL", "unknown word 4"]);
}
