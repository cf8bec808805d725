//! The loader's causes: 1, 2, 3 over the tables, with a chosen row or without, then 10; and 4 over what is lent.
use crate::layout::cell_count;
use tables::{Tables, ARGUMENT, EXTERN, INSTRUCTION, NODE, PARAMETER, REGION};

const CELLS: u128 = 4096;
const FRAME: u64 = 8;

/// "The journal, at most 2,048 entries of three words."
pub const ENTRIES: usize = 2048;
pub const ENTRY: usize = 3;

/// The tables in the order 1, 2, 3, 10. The number of cells, or the refusal.
pub fn load(tables: &Tables) -> Result<usize, u64> {
    looks(tables, |_| true)?;
    let cells = cell_count(tables);
    need(cells <= CELLS, 10)?;
    Ok(cells as usize)
}

/// The tables in the order 1, 2, 3; the row is a frame's: "chosen row absent or of the wrong family" is 2.
pub fn load_frame(tables: &Tables, row: u64) -> Result<(), u64> {
    looks(tables, |tables| tables.instructions().nth(row as usize).is_some_and(|chosen| chosen[0] == FRAME))
}

fn looks(tables: &Tables, chosen: impl Fn(&Tables) -> bool) -> Result<(), u64> {
    need(whole(tables), 1)?;
    need(words_allowed(tables) && chosen(tables), 2)?;
    need(distinct(&tables.regions, REGION) && distinct(&tables.externs, EXTERN), 3)
}

/// "4 lent buffer too short, or journal not whole entries or too long."
pub fn lent(cells: usize, memory: &[u64], journal: &[u64]) -> Result<(), u64> {
    need(memory.len() >= 2 * cells && journal.len() % ENTRY == 0 && journal.len() / ENTRY <= ENTRIES, 4)
}

pub fn need(holds: bool, number: u64) -> Result<(), u64> {
    if holds {
        Ok(())
    } else {
        Err(number)
    }
}

/// "1 table not whole rows or over a limit."
fn whole(t: &Tables) -> bool {
    let fits = |table: &[u64], width, limit| table.len() % width == 0 && table.len() / width <= limit;
    fits(&t.regions, REGION, 64)
        && fits(&t.externs, EXTERN, 32)
        && fits(&t.parameters, PARAMETER, 256)
        && fits(&t.nodes, NODE, 2048)
        && fits(&t.arguments, ARGUMENT, 1024)
        && fits(&t.instructions, INSTRUCTION, 512)
}

/// "2 word not allowed, range outside its table." Unused words are 0.
fn words_allowed(t: &Tables) -> bool {
    let every = |table: &[u64], width, allowed: fn(&[u64]) -> bool| table.chunks(width).all(allowed);
    every(&t.regions, REGION, |r| r[1] <= 3)
        && t.externs().all(|e| e[1] <= 4 && inside(&t.parameters, PARAMETER, e[2], e[3]))
        && every(&t.parameters, PARAMETER, |p| p[1] <= 1 && p[2] <= 2 && p[3] <= 3 && (p[2] == 1 || p[4] == 0))
        && every(&t.nodes, NODE, node_allowed)
        && every(&t.arguments, ARGUMENT, |a| a[0] <= 2 && (a[0] != 0 || a[2] == 0))
        && t.instructions().all(|row| instruction_allowed(t, row))
}

/// First plus count at most the rows, without wrapping.
fn inside(table: &[u64], width: usize, first: u64, count: u64) -> bool {
    u128::from(first) + u128::from(count) <= (table.len() / width) as u128
}

fn node_allowed(node: &[u64]) -> bool {
    match node[0] {
        0 | 3 => true,
        1 | 2 | 4 | 5 => node[1] == 0 && node[2] == 0,
        6 => node[2] == 0,
        _ => false,
    }
}

fn instruction_allowed(t: &Tables, w: &[u64]) -> bool {
    let zero = |words: &[u64]| words.iter().all(|&word| word == 0);
    // How many operators the family has, and its unused or region index words.
    let (operators, unused) = match w[0] {
        0 => (4, zero(&w[4..6])),
        1 => (5, true),
        2 => (6, zero(&w[4..6])),
        3 => (2, zero(&w[4..6])),
        4 => (1, zero(&w[4..6])),
        5 => (1, true),
        6 => (1, w[5] == 0),
        7 => (1, w[3] == 0),
        8 => (5, zero(&w[4..6]) && inside(&t.nodes, NODE, w[2], w[3]) && one_tree(t.nodes_of(w[2], w[3]))),
        9 => (1, w[5] == 0 && inside(&t.arguments, ARGUMENT, w[3], w[4])),
        10 => (2, zero(&w[2..6])),
        // "First name and index are the condition, second name the label."
        11 | 14 => (1, zero(&w[2..4]) && w[5] == 0),
        12 | 13 => (1, w[5] == 0),
        15 => (1, zero(&w[2..6])),
        // "Its first name and index the destination, its source a reference."
        16 => (1, zero(&w[4..6])),
        _ => return false,
    };
    let form = match w[0] {
        3 | 5 | 8..=15 => w[6] == 3,
        2 => w[6] == 0 || w[6] == 2,
        6 | 16 => w[6] == 2,
        _ => w[6] <= 2,
    };
    let source = match w[6] {
        0 | 1 => w[8] == 0,
        3 => zero(&w[7..9]),
        _ => true,
    };
    w[1] < operators && unused && form && source
}

/// "A parent precedes its children, left first": the nodes are exactly one tree.
fn one_tree(nodes: &[u64]) -> bool {
    let mut wanted = 1u64;
    for node in nodes.chunks(NODE) {
        if wanted == 0 {
            return false;
        }
        wanted = match node[0] {
            1 | 5 => wanted,
            2 => wanted + 1,
            _ => wanted - 1,
        };
    }
    wanted == 0
}

/// "3 two regions or two externs of one name."
fn distinct(table: &[u64], width: usize) -> bool {
    let mut names: Vec<u64> = table.chunks(width).map(|row| row[0]).collect();
    let count = names.len();
    names.sort_unstable();
    names.dedup();
    names.len() == count
}
