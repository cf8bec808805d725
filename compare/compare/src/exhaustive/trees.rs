//! Every tree of up to five nodes over all leaves, under every frame operator.
use crate::program::{Node, Program, Row};

/// 2^-52 and the numbers beside it, in bits.
const EPSILON: u64 = 0x3CB0_0000_0000_0000;
const SIGN: u64 = 1 << 63;

const MOST: usize = 5;

/// Regions 0 to 3 have their number's kind.
const UNDECLARED: u64 = 9;

fn leaves() -> Vec<Node> {
    let mut leaves: Vec<Node> = (0..4).map(|name| [0, name, name]).collect();
    leaves.push([0, UNDECLARED, 0]);
    let imaginary = [
        0,
        EPSILON - 1,
        EPSILON,
        EPSILON + 1,
        SIGN | EPSILON,
        SIGN | (EPSILON + 1),
        f64::INFINITY.to_bits(),
        f64::NEG_INFINITY.to_bits(),
        f64::NAN.to_bits(),
        SIGN | f64::NAN.to_bits() | 1,
    ];
    leaves.extend(imaginary.map(|bits| [3, f64::NAN.to_bits(), bits]));
    leaves.extend([[4, 0, 0], [6, 3, 0]]);
    leaves
}

/// The trees of each size, from 1.
fn trees() -> Vec<Vec<Vec<Node>>> {
    let mut by_size: Vec<Vec<Vec<Node>>> = vec![Vec::new(), leaves().into_iter().map(|leaf| vec![leaf]).collect()];
    for size in 2..=MOST {
        let mut trees = Vec::new();
        for child in &by_size[size - 1] {
            for tag in [1, 5] {
                trees.push([&[[tag, 0, 0]], &child[..]].concat());
            }
        }
        for left_size in 1..size - 1 {
            for left in &by_size[left_size] {
                for right in &by_size[size - 1 - left_size] {
                    trees.push([&[[2, 0, 0]], &left[..], &right[..]].concat());
                }
            }
        }
        by_size.push(trees);
    }
    by_size
}

pub fn each(visit: &mut dyn FnMut(Program)) {
    let regions: Vec<[u64; 3]> = (0..4).map(|kind| [kind, kind, 4]).collect();
    for nodes in trees().into_iter().flatten() {
        for operator in 0..5 {
            visit(Program {
                regions: regions.clone(),
                rows: vec![Row::Frame { operator, nodes: nodes.clone() }],
                ..Program::default()
            });
        }
    }
}
