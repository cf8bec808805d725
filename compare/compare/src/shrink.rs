//! The smallest program that still differs: parts are taken away and words made plain as long as it does.
use crate::program::{Layout, Node, Program, Row};

pub fn shrink(mut program: Program, differs: impl Fn(&Program) -> bool) -> Program {
    loop {
        let smaller = candidates(&program).into_iter().find(|candidate| differs(candidate));
        match smaller {
            Some(candidate) => program = candidate,
            None => return program,
        }
    }
}

fn candidates(program: &Program) -> Vec<Program> {
    let mut list = Vec::new();
    let mut with = |change: &dyn Fn(&mut Program)| {
        let mut candidate = program.clone();
        change(&mut candidate);
        list.push(candidate);
    };
    if program.layout != Layout::InOrder {
        with(&|p| p.layout = Layout::InOrder);
    }
    let rows = program.rows.len();
    for half in [0..rows / 2, rows / 2..rows] {
        if rows > 3 {
            with(&|p| p.rows.drain(half.clone()).for_each(drop));
        }
    }
    (0..rows).for_each(|i| with(&|p| without(&mut p.rows, i)));
    (0..program.externs.len()).for_each(|i| with(&|p| without(&mut p.externs, i)));
    (0..program.regions.len()).for_each(|i| with(&|p| without(&mut p.regions, i)));
    for (i, e) in program.externs.iter().enumerate() {
        (0..e.parameters.len()).for_each(|k| with(&|p| without(&mut p.externs[i].parameters, k)));
    }
    for (i, row) in program.rows.iter().enumerate() {
        match row {
            Row::Frame { nodes, .. } => {
                for smaller in smaller_trees(nodes) {
                    with(&|p| p.rows[i].set_nodes(smaller.clone()));
                }
            }
            Row::Call { arguments, .. } => {
                (0..arguments.len()).for_each(|k| with(&|p| p.rows[i].drop_argument(k)));
                drop_pairs(program, i, &mut with);
            }
            Row::Plain(words) => {
                // Indices and literals.
                for k in [3, 5, 8] {
                    if words[k] != 0 {
                        with(&|p| p.rows[i].set_word(k, 0));
                    }
                }
                if words[6] < 2 && words[7] != 0 {
                    with(&|p| p.rows[i].set_word(7, 0));
                }
            }
        }
    }
    for (i, region) in program.regions.iter().enumerate() {
        if region[2] > 1 {
            with(&|p| p.regions[i][2] = 1);
        }
    }
    list
}

fn without<T>(list: &mut Vec<T>, i: usize) {
    list.remove(i);
}

/// An argument together with its parameter.
fn drop_pairs(program: &Program, i: usize, with: &mut dyn FnMut(&dyn Fn(&mut Program))) {
    if let Row::Call { name, arguments } = &program.rows[i] {
        for (e, found) in program.externs.iter().enumerate().filter(|(_, e)| e.name == *name) {
            let shift = usize::from(found.returned != tables::NO_RETURN);
            for k in 0..found.parameters.len().min(arguments.len().saturating_sub(shift)) {
                with(&|p| {
                    p.externs[e].parameters.remove(k);
                    p.rows[i].drop_argument(k + shift);
                });
            }
        }
    }
}

impl Row {
    fn set_nodes(&mut self, smaller: Vec<Node>) {
        if let Row::Frame { nodes, .. } = self {
            *nodes = smaller;
        }
    }

    fn set_word(&mut self, k: usize, word: u64) {
        if let Row::Plain(words) = self {
            words[k] = word;
        }
    }

    fn drop_argument(&mut self, k: usize) {
        if let Row::Call { arguments, .. } = self {
            arguments.remove(k);
        }
    }
}

/// The tree with one subtree put in its parent's place, or turned into pi.
fn smaller_trees(nodes: &[Node]) -> Vec<Vec<Node>> {
    let mut list = Vec::new();
    for at in 0..nodes.len() {
        let end = at + size(&nodes[at..]);
        let mut put = |with: &[Node]| list.push([&nodes[..at], with, &nodes[end..]].concat());
        if nodes[at][0] != 4 {
            put(&[[4, 0, 0]]);
        }
        let mut child = at + 1;
        while child < end {
            let next = child + size(&nodes[child..]);
            put(&nodes[child..next]);
            child = next;
        }
    }
    list
}

/// How many nodes the tree has that starts the list.
fn size(nodes: &[Node]) -> usize {
    let mut open = 1;
    let mut seen = 0;
    while open > 0 {
        open += match nodes[seen][0] {
            1 | 5 => 0,
            2 => 1,
            _ => -1,
        };
        seen += 1;
    }
    seen
}
