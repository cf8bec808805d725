//! A program for people: its words, row by row, and Quil-like text.
use crate::{Tables, ARGUMENT, NODE, NO_RETURN, PARAMETER};
use std::fmt::Write;

const KINDS: [&str; 4] = ["BIT", "INTEGER", "OCTET", "REAL"];

const OPERATORS: [&[&str]; 17] = [
    &["ADD", "SUB", "DIV", "MUL"],
    &["EQ", "GE", "GT", "LE", "LT"],
    &["AND", "IOR", "XOR", "SHL", "SHR", "ASHR"],
    &["NEG", "NOT"],
    &["MOVE"],
    &["EXCHANGE"],
    &["LOAD"],
    &["STORE"],
    &["SET-FREQUENCY", "SET-PHASE", "SET-SCALE", "SHIFT-FREQUENCY", "SHIFT-PHASE"],
    &["CALL"],
    &["NOP", "(another instruction)"],
    &["JUMP"],
    &["JUMP-WHEN"],
    &["JUMP-UNLESS"],
    &["LABEL"],
    &["HALT"],
    &["CONVERT"],
];

/// The six tables, a row to a line.
pub fn words_text(tables: &Tables) -> String {
    let mut text = String::new();
    for (name, width, words) in tables.in_order() {
        for (i, row) in words.chunks(width).enumerate() {
            let row: Vec<String> = row.iter().map(|w| w.to_string()).collect();
            let _ = writeln!(text, "{name} {i}: {}", row.join(", "));
        }
    }
    text
}

/// The same as text that reads like Quil. A number n is the name n<n>.
pub fn quil_text(tables: &Tables) -> String {
    let mut text = String::new();
    for r in tables.regions() {
        let _ = writeln!(text, "DECLARE n{} {}[{}]", r[0], kind(r[1]), r[2]);
    }
    for e in tables.externs() {
        let _ = writeln!(text, "PRAGMA EXTERN n{} \"{}\"", e[0], signature(tables, e));
    }
    for row in tables.instructions() {
        let _ = writeln!(text, "{}", instruction(tables, row));
    }
    text
}

fn kind(word: u64) -> &'static str {
    KINDS.get(word as usize).copied().unwrap_or("?")
}

fn signature(tables: &Tables, e: &[u64]) -> String {
    let parameters: Vec<String> = tables
        .parameters_of(e[2], e[3])
        .chunks(PARAMETER)
        .map(|p| {
            let shape = match p[2] {
                0 => String::new(),
                1 => format!("[{}]", p[4]),
                _ => "[]".to_string(),
            };
            let mutable = if p[1] == 0 { "" } else { "mut " };
            format!("n{} : {mutable}{}{shape}", p[0], kind(p[3]))
        })
        .collect();
    let returned = if e[1] == NO_RETURN { "" } else { kind(e[1]) };
    format!("{returned} ({})", parameters.join(", "))
}

fn instruction(tables: &Tables, row: &[u64]) -> String {
    let operator = OPERATORS[row[0] as usize][row[1] as usize];
    let first = format!("n{}[{}]", row[2], row[3]);
    let second = format!("n{}[{}]", row[4], row[5]);
    let source = match row[6] {
        0 => format!("{}", row[7] as i64),
        1 => format!("{:?}", f64::from_bits(row[7])),
        _ => format!("n{}[{}]", row[7], row[8]),
    };
    match row[0] {
        1 => format!("{operator} {first} {second} {source}"),
        3 => format!("{operator} {first}"),
        5 => format!("{operator} {first} {second}"),
        6 => format!("{operator} {first} n{} {source}", row[4]),
        7 => format!("{operator} n{} {second} {source}", row[2]),
        8 => format!("{operator} \"frame\" {}", expression(tables.nodes_of(row[2], row[3]))),
        9 => format!("{operator} n{}{}", row[2], arguments(tables.arguments_of(row[3], row[4]))),
        10 | 15 => operator.to_string(),
        11 | 14 => format!("{operator} @n{}", row[4]),
        12 | 13 => format!("{operator} @n{} {first}", row[4]),
        _ => format!("{operator} {first} {source}"),
    }
}

/// From the last node back, so that a deep tree needs no deep stack.
fn expression(nodes: &[u64]) -> String {
    let mut done: Vec<String> = Vec::new();
    for node in nodes.chunks(NODE).rev() {
        let text = match node[0] {
            0 => format!("n{}[{}]", node[1], node[2]),
            1 => format!("f({})", done.pop().unwrap_or_default()),
            2 => {
                let left = done.pop().unwrap_or_default();
                let right = done.pop().unwrap_or_default();
                format!("({left} + {right})")
            }
            3 => format!("{:?}{:+?}i", f64::from_bits(node[1]), f64::from_bits(node[2])),
            4 => "pi".to_string(),
            5 => format!("-{}", done.pop().unwrap_or_default()),
            _ => format!("%n{}", node[1]),
        };
        done.push(text);
    }
    done.pop().unwrap_or_default()
}

fn arguments(arguments: &[u64]) -> String {
    arguments
        .chunks(ARGUMENT)
        .map(|a| match a[0] {
            0 => format!(" n{}", a[1]),
            1 => format!(" n{}[{}]", a[1], a[2]),
            _ => format!(" {:?}{:+?}i", f64::from_bits(a[1]), f64::from_bits(a[2])),
        })
        .collect()
}
