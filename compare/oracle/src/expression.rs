//! A tree of node rows as quil-rs's expression, and its references.
use crate::names::{name, number};
use num_complex::Complex64;
use quil_rs::{
    expression::{
        Expression, ExpressionFunction, FunctionCallExpression, InfixExpression, InfixOperator, PrefixExpression,
        PrefixOperator,
    },
    instruction::MemoryReference,
};
use tables::{Answer, Tables, NODE};

// The tables drop operators; no kept answer may depend on them, so each node takes another.
const FUNCTIONS: [ExpressionFunction; 5] = [
    ExpressionFunction::Cis,
    ExpressionFunction::Cosine,
    ExpressionFunction::Exponent,
    ExpressionFunction::Sine,
    ExpressionFunction::SquareRoot,
];
const INFIX: [InfixOperator; 5] =
    [InfixOperator::Caret, InfixOperator::Plus, InfixOperator::Minus, InfixOperator::Slash, InfixOperator::Star];
const PREFIX: [PrefixOperator; 2] = [PrefixOperator::Plus, PrefixOperator::Minus];

/// The tree. A leaf is made by `leaf` from its place and row; the rest is built from the last node back, so that
/// a deep tree needs no deep stack here.
pub fn tree(nodes: &[u64], leaf: impl Fn(usize, &[u64]) -> Expression) -> Result<Expression, String> {
    let mut done: Vec<Expression> = Vec::new();
    for (k, node) in nodes.chunks(NODE).enumerate().rev() {
        let missing = || format!("node {k} lacks a child");
        let expression = match node[0] {
            1 => Expression::FunctionCall(FunctionCallExpression::new(
                FUNCTIONS[k % FUNCTIONS.len()],
                done.pop().ok_or_else(missing)?.into(),
            )),
            2 => {
                let left = done.pop().ok_or_else(missing)?;
                let right = done.pop().ok_or_else(missing)?;
                let operator = INFIX[k % INFIX.len()];
                Expression::Infix(InfixExpression::new(left.into(), operator, right.into()))
            }
            5 => Expression::Prefix(PrefixExpression::new(
                PREFIX[k % PREFIX.len()],
                done.pop().ok_or_else(missing)?.into(),
            )),
            _ => leaf(k, node),
        };
        done.push(expression);
    }
    match (done.pop(), done.is_empty()) {
        (Some(expression), true) => Ok(expression),
        _ => Err("the nodes are not one tree".to_string()),
    }
}

/// A leaf as the row says.
pub fn plain_leaf(node: &[u64]) -> Expression {
    match node[0] {
        0 => Expression::Address(MemoryReference::new(name(node[1]), node[2])),
        3 => Expression::Number(Complex64::new(f64::from_bits(node[1]), f64::from_bits(node[2]))),
        4 => Expression::PiConstant(),
        _ => Expression::Variable(name(node[1])),
    }
}

/// Every reference of the iterator as 1, name, index; then its end, asked twice.
pub fn references(tables: &Tables, first: u64, count: u64) -> Result<Answer, String> {
    let expression = tree(tables.nodes_of(first, count), |_, node| plain_leaf(node))?;
    let mut references = expression.memory_references();
    let mut out = Vec::new();
    let mut ends = 0;
    while ends < 2 {
        match references.next() {
            Some(reference) => out.extend([1, number(&reference.name)?, reference.index]),
            None => {
                out.extend([0, 0, 0]);
                ends += 1;
            }
        }
    }
    Ok(Answer { number: 0, out, lent: Vec::new() })
}
