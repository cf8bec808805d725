//! Every call of up to two arguments over shapes, kinds, mutability, forms and returns; and every count of up to
//! three arguments against up to two parameters.
use crate::program::{Argument, Extern, Parameter, Program, Row};
use tables::NO_RETURN;

const FIXED: u64 = 2;
const UNDECLARED: u64 = 99;
const EXTERN: u64 = 7;

/// Of each kind a region of the fixed length and one of another.
fn regions() -> Vec<[u64; 3]> {
    (0..8).map(|i| [i, i % 4, if i < 4 { FIXED } else { 0 }]).collect()
}

fn arguments() -> Vec<Argument> {
    let mut arguments: Vec<Argument> = (0..8).map(|name| [0, name, 0]).collect();
    arguments.extend((0..4).map(|name| [1, name, u64::MAX - name]));
    arguments.extend([[0, UNDECLARED, 0], [1, UNDECLARED, 0]]);
    let payload = f64::NAN.to_bits() | 5;
    arguments.extend([[2, 0, 0], [2, payload, f64::INFINITY.to_bits()]]);
    arguments
}

fn parameters() -> Vec<Parameter> {
    let mut parameters = Vec::new();
    for mutable in 0..2 {
        for kind in 0..4 {
            parameters.extend([
                [u64::MAX, mutable, 0, kind, 0],
                [0, mutable, 1, kind, FIXED],
                [1, mutable, 2, kind, 0],
            ]);
        }
    }
    parameters
}

fn call(returned: u64, parameters: Vec<Parameter>, arguments: Vec<Argument>) -> Program {
    Program {
        regions: regions(),
        externs: vec![Extern { name: EXTERN, returned, parameters }],
        rows: vec![Row::Call { name: EXTERN, arguments }],
        ..Program::default()
    }
}

pub fn each(visit: &mut dyn FnMut(Program)) {
    for first in arguments() {
        for returned in 0..NO_RETURN {
            visit(call(returned, vec![], vec![first]));
        }
        for p in parameters() {
            visit(call(NO_RETURN, vec![p], vec![first]));
            for second in arguments() {
                for returned in 0..NO_RETURN {
                    visit(call(returned, vec![p], vec![first, second]));
                }
                for q in parameters() {
                    visit(call(NO_RETURN, vec![p, q], vec![first, second]));
                }
            }
        }
    }
    each_count(visit);
}

/// Counts that need not fit, an extern that is not there, and one with neither return nor parameters.
fn each_count(visit: &mut dyn FnMut(Program)) {
    let arguments = arguments();
    for returned in 0..=NO_RETURN {
        for declared in 0..3 {
            for p in parameters() {
                for given in 0..4 {
                    for a in 0..arguments.len() {
                        let list = (0..given).map(|k| arguments[(a + 5 * k) % arguments.len()]).collect();
                        let mut program = call(returned, vec![p; declared], list);
                        visit(program.clone());
                        program.externs[0].name = EXTERN + 1;
                        visit(program);
                    }
                }
            }
        }
    }
}
