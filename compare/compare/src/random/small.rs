//! Small programs, from all careless to nearly all careful, so that errors come early, late and not at all.
use super::{
    names,
    rows::{Care, Rows},
};
use crate::{
    program::{Extern, Layout, Parameter, Program},
    random_numbers::Random,
};

const LENGTHS: [u64; 5] = [0, 1, 2, 3, u64::MAX];

pub fn program(random: &mut Random) -> Program {
    let mut program =
        Program { layout: random.pick(&[Layout::InOrder, Layout::Backward, Layout::Shared]), ..Program::default() };
    let count = random.size(7);
    program.regions = regions(random, count);
    let count = random.size(4);
    program.externs = names(random, count)
        .into_iter()
        .map(|name| {
            let parameters = (0..random.size(4)).map(|_| parameter(random)).collect();
            Extern { name, returned: random.below(5), parameters }
        })
        .collect();
    let care = Care(random.pick(&[0, 60, 90, 97, 100]));
    let most = random.pick(&[1, 4, 12, 40]);
    let count = random.size(most + 1);
    fill(random, &mut program, count, care, 9);
    // Late errors: after careful rows one without care.
    if care.0 > 95 {
        fill(random, &mut program, 1, Care(0), 9);
    }
    program
}

pub fn regions(random: &mut Random, count: usize) -> Vec<[u64; 3]> {
    let names = names(random, count);
    names.into_iter().map(|name| [name, random.below(4), random.pick(&LENGTHS)]).collect()
}

pub fn parameter(random: &mut Random) -> Parameter {
    let shape = random.below(3);
    let length = if shape == 1 { random.pick(&LENGTHS) } else { 0 };
    [random.pick(&super::NAMES), random.below(2), shape, random.below(4), length]
}

/// Adds rows.
pub fn fill(random: &mut Random, program: &mut Program, count: usize, care: Care, most_nodes: usize) {
    for _ in 0..count {
        let row = Rows { random, program, care, most_nodes }.row();
        program.rows.push(row);
    }
}
