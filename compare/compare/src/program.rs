//! A program as it is generated and shrunk: always inside the limits, with distinct names. Its tables may lie in
//! several ways.
use tables::{Query, Tables};

pub type Node = [u64; 3];
pub type Argument = [u64; 3];
pub type Parameter = [u64; 5];

#[derive(Clone, Debug, Default)]
pub struct Program {
    /// Name, kind, length.
    pub regions: Vec<[u64; 3]>,
    pub externs: Vec<Extern>,
    pub rows: Vec<Row>,
    pub layout: Layout,
}

#[derive(Clone, Debug)]
pub struct Extern {
    pub name: u64,
    /// A kind, or 4 for none.
    pub returned: u64,
    pub parameters: Vec<Parameter>,
}

#[derive(Clone, Debug)]
pub enum Row {
    Plain([u64; 9]),
    Frame { operator: u64, nodes: Vec<Node> },
    Call { name: u64, arguments: Vec<Argument> },
}

/// Where the ranges of nodes, arguments and parameters lie in their tables.
#[derive(Clone, Copy, Debug, Default, PartialEq)]
pub enum Layout {
    #[default]
    InOrder,
    /// The last row's first.
    Backward,
    /// A range that lies in what is already there is not written again.
    Shared,
}

impl Program {
    pub fn tables(&self) -> Tables {
        let mut t = Tables { regions: self.regions.concat(), ..Tables::default() };
        let parameters: Vec<&[Parameter]> = self.externs.iter().map(|e| &e.parameters[..]).collect();
        let firsts = place(self.layout, &parameters, &mut t.parameters);
        for (e, first) in self.externs.iter().zip(firsts) {
            t.externs.extend([e.name, e.returned, first, e.parameters.len() as u64]);
        }
        let nodes: Vec<&[Node]> = self.rows.iter().map(Row::nodes).collect();
        let first_nodes = place(self.layout, &nodes, &mut t.nodes);
        let arguments: Vec<&[Argument]> = self.rows.iter().map(Row::arguments).collect();
        let first_arguments = place(self.layout, &arguments, &mut t.arguments);
        for ((row, first_node), first_argument) in self.rows.iter().zip(first_nodes).zip(first_arguments) {
            t.instructions.extend(match row {
                Row::Plain(words) => *words,
                Row::Frame { operator, nodes } => [8, *operator, first_node, nodes.len() as u64, 0, 0, 3, 0, 0],
                Row::Call { name, arguments } => [9, 0, *name, first_argument, arguments.len() as u64, 0, 3, 0, 0],
            });
        }
        t
    }

    /// Everything that can be asked about it; `room` is what the lent buffers have beyond what is needed.
    pub fn queries(&self, tables: &Tables, room: usize) -> Vec<Query> {
        let mut queries = vec![Query::Check];
        for (i, row) in self.rows.iter().enumerate() {
            let words = tables.instruction(i);
            match row {
                Row::Plain(_) => {}
                Row::Frame { .. } => {
                    queries.push(Query::Frame { row: i as u64 });
                    let walk = Query::References { first: words[2], count: words[3] };
                    if !queries.contains(&walk) {
                        queries.push(walk);
                    }
                }
                Row::Call { arguments, .. } => {
                    let (row, n) = (i as u64, arguments.len());
                    queries.push(Query::Resolve { row, room: 7 * n + room });
                    queries.push(Query::Access { row, room: [n + room, n + (room + 1) % 3] });
                }
            }
        }
        queries
    }
}

impl Row {
    fn nodes(&self) -> &[Node] {
        match self {
            Row::Frame { nodes, .. } => nodes,
            _ => &[],
        }
    }

    fn arguments(&self) -> &[Argument] {
        match self {
            Row::Call { arguments, .. } => arguments,
            _ => &[],
        }
    }
}

/// Puts the lists into a table; the first row of each.
fn place<const N: usize>(layout: Layout, lists: &[&[[u64; N]]], table: &mut Vec<u64>) -> Vec<u64> {
    let mut firsts = vec![0; lists.len()];
    let mut order: Vec<usize> = (0..lists.len()).collect();
    if layout == Layout::Backward {
        order.reverse();
    }
    for i in order {
        let words = lists[i].concat();
        let there = match layout {
            Layout::Shared => found(table, &words, N),
            _ => None,
        };
        firsts[i] = there.unwrap_or_else(|| {
            table.extend(&words);
            (table.len() - words.len()) as u64 / N as u64
        });
    }
    firsts
}

/// The first row from which the words already lie in the table.
fn found(table: &[u64], words: &[u64], width: usize) -> Option<u64> {
    (0..table.len() / width).find(|row| table[row * width..].starts_with(words)).map(|row| row as u64)
}
