//! One row by chance: any, or one that is likely to pass.
use super::{word, EPSILON, NAMES};
use crate::{
    program::{Argument, Extern, Node, Program, Row},
    random_numbers::Random,
};
use tables::NO_RETURN;

const REAL: u64 = 3;
const NOP: Row = Row::Plain([10, 0, 0, 0, 0, 0, 3, 0, 0]);

/// How likely parts are to be chosen as the typing rules want them, in percent.
#[derive(Clone, Copy)]
pub struct Care(pub u64);

pub struct Rows<'a> {
    pub random: &'a mut Random,
    pub program: &'a Program,
    pub care: Care,
    pub most_nodes: usize,
}

impl Rows<'_> {
    pub fn row(&mut self) -> Row {
        match self.random.below(17) {
            family @ 0..=7 => Row::Plain(self.plain(family)),
            8..=9 => Row::Frame { operator: self.random.below(5), nodes: self.nodes() },
            10..=12 => self.call(),
            13 => Row::Plain([10, self.random.below(2), 0, 0, 0, 0, 3, 0, 0]),
            14 => Row::Plain(self.convert()),
            _ => Row::Plain(self.flow()),
        }
    }

    /// A jump, LABEL or HALT. What its label is has no say in any answer here.
    fn flow(&mut self) -> [u64; 9] {
        let (label, index) = (self.random.pick(&NAMES), word(self.random));
        match self.random.below(5) {
            0 => [11, 0, 0, 0, label, 0, 3, 0, 0],
            1 => [14, 0, 0, 0, label, 0, 3, 0, 0],
            2 => [15, 0, 0, 0, 0, 0, 3, 0, 0],
            family => [9 + family, 0, self.name(&[0]), index, label, 0, 3, 0, 0],
        }
    }

    /// Of any two kinds without care: the check passes it unseen.
    fn convert(&mut self) -> [u64; 9] {
        let [to, from] = self.random.pick(&[[1, REAL], [REAL, 1]]);
        let [i, j] = [word(self.random), word(self.random)];
        [16, 0, self.name(&[to]), i, 0, 0, 2, self.name(&[from]), j]
    }

    fn careful(&mut self) -> bool {
        self.random.chance(self.care.0)
    }

    /// A name of one of these kinds if there is one and care is taken; else any declared name or any at all.
    fn name(&mut self, kinds: &[u64]) -> u64 {
        if self.careful() {
            let fit: Vec<u64> = self.program.regions.iter().filter(|r| kinds.contains(&r[1])).map(|r| r[0]).collect();
            if let Some(&name) = self.random.choose(&fit) {
                return name;
            }
        }
        match self.random.choose(&self.program.regions) {
            Some(region) if self.random.chance(85) => region[0],
            _ => self.random.pick(&NAMES),
        }
    }

    fn kind_of(&self, name: u64) -> Option<u64> {
        self.program.regions.iter().find(|r| r[0] == name).map(|r| r[1])
    }

    /// A literal that fits the kind, or a reference to a region of it.
    fn source(&mut self, kind: Option<u64>, real: bool) -> [u64; 3] {
        let kind = kind.unwrap_or(1);
        let bits = word(self.random);
        match self.random.below(2) {
            0 => [2, self.name(&[kind]), word(self.random)],
            _ if self.careful() => [u64::from(real && kind == REAL), bits, 0],
            _ => [if real { self.random.below(2) } else { 0 }, bits, 0],
        }
    }

    fn plain(&mut self, family: u64) -> [u64; 9] {
        let (i, j) = (word(self.random), word(self.random));
        match family {
            0 => {
                let first = self.name(&[1, REAL]);
                let [form, x, y] = self.source(self.kind_of(first), true);
                [0, self.random.below(4), first, i, 0, 0, form, x, y]
            }
            1 => {
                let (first, second) = (self.name(&[0]), self.name(&[0, 1, 2, 3]));
                let [form, x, y] = self.source(self.kind_of(second), true);
                [1, self.random.below(5), first, i, second, j, form, x, y]
            }
            2 => {
                let first = self.name(&[0, 1, 2]);
                let [form, x, y] = self.source(self.kind_of(first), false);
                [2, self.random.below(6), first, i, 0, 0, form, x, y]
            }
            3 => {
                let operator = self.random.below(2);
                let kinds: &[u64] = if operator == 0 { &[1, REAL] } else { &[0, 1, 2] };
                [3, operator, self.name(kinds), i, 0, 0, 3, 0, 0]
            }
            4 => {
                let first = self.name(&[0, 1, 2, 3]);
                let [form, x, y] = self.source(self.kind_of(first), true);
                [4, 0, first, i, 0, 0, form, x, y]
            }
            5 => {
                let first = self.name(&[0, 1, 2, 3]);
                let kind = self.kind_of(first).unwrap_or(0);
                [5, 0, first, i, self.name(&[kind]), j, 3, 0, 0]
            }
            6 => {
                let first = self.name(&[0, 1, 2, 3]);
                let kind = self.kind_of(first).unwrap_or(0);
                [6, 0, first, i, self.name(&[kind]), 0, 2, self.name(&[1]), j]
            }
            _ => {
                let first = self.name(&[0, 1, 2, 3]);
                let [form, x, y] = self.source(self.kind_of(first), true);
                [7, 0, first, 0, self.name(&[1]), j, form, x, y]
            }
        }
    }

    /// A tree of up to so many nodes, parent first.
    fn nodes(&mut self) -> Vec<Node> {
        let most = 1 + self.random.size(self.most_nodes);
        let mut nodes = Vec::new();
        let mut open = 1;
        while open > 0 {
            let left = most.saturating_sub(nodes.len() + open);
            let node = match self.random.below(6) {
                0 if left > 0 => [self.random.pick(&[1, 5]), 0, 0],
                1..=4 if left > 1 => [2, 0, 0],
                _ => self.leaf(),
            };
            open = match node[0] {
                1 | 5 => open,
                2 => open + 1,
                _ => open - 1,
            };
            nodes.push(node);
        }
        nodes
    }

    pub fn leaf(&mut self) -> Node {
        if self.careful() {
            return match self.random.below(5) {
                0 => [4, 0, 0],
                1..=2 => [3, word(self.random), self.random.pick(&[0, EPSILON, f64::NAN.to_bits()])],
                _ => match self.program.regions.iter().find(|r| r[1] == REAL) {
                    Some(region) => [0, region[0], word(self.random)],
                    None => [4, 0, 0],
                },
            };
        }
        match self.random.below(6) {
            0..=2 => [0, self.name(&[REAL]), word(self.random)],
            3 => [3, word(self.random), word(self.random)],
            4 => [4, 0, 0],
            _ => [6, self.random.pick(&NAMES), 0],
        }
    }

    fn call(&mut self) -> Row {
        let called = self.random.choose(&self.program.externs).cloned();
        match called {
            Some(called) => {
                let name = if self.random.chance(95) { called.name } else { self.random.pick(&NAMES) };
                Row::Call { name, arguments: self.arguments(&called) }
            }
            None if self.careful() => NOP,
            None => Row::Call { name: self.random.pick(&NAMES), arguments: vec![self.argument(); 2] },
        }
    }

    pub fn arguments(&mut self, called: &Extern) -> Vec<Argument> {
        let mut arguments = Vec::new();
        if called.returned != NO_RETURN {
            let name = self.name(&[called.returned]);
            arguments.push(if self.careful() { [self.random.below(2), name, 0] } else { self.argument() });
        }
        for p in &called.parameters {
            let careful = self.careful();
            arguments.push(match p[2] {
                0 if careful => match self.random.below(3) {
                    0 if p[1] == 0 => [2, word(self.random), word(self.random)],
                    form => [form % 2, self.name(&[p[3]]), 0],
                },
                _ if careful => [0, self.vector(p[2], p[3], p[4]), 0],
                _ => self.argument(),
            });
        }
        if self.random.chance(10) {
            match self.random.below(2) {
                0 => arguments.push(self.argument()),
                _ => drop(arguments.pop()),
            }
        }
        arguments
    }

    /// A region that fits a vector parameter, if there is one.
    fn vector(&mut self, shape: u64, kind: u64, length: u64) -> u64 {
        let regions = &self.program.regions;
        match regions.iter().find(|r| r[1] == kind && (shape == 2 || r[2] == length)) {
            Some(region) => region[0],
            None => self.name(&[kind]),
        }
    }

    pub fn argument(&mut self) -> Argument {
        let name = self.name(&[0, 1, 2, 3]);
        match self.random.below(3) {
            0 => [0, name, 0],
            1 => [1, name, word(self.random)],
            _ => [2, word(self.random), word(self.random)],
        }
    }
}
