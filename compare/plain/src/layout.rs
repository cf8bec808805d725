//! "A cell is kind, word. Regions lie in table order, at most 4,096 cells."
use crate::{BIT, OCTET};
use tables::Tables;

#[derive(Clone, Copy, Debug)]
pub struct Region {
    pub name: u64,
    pub kind: u64,
    pub length: u64,
    /// Its first cell.
    pub start: u64,
}

#[derive(Clone, Copy, Debug, PartialEq)]
pub struct Cell {
    pub kind: u64,
    pub word: u64,
}

/// All cells of the program, which may be more than a machine can have.
pub fn cell_count(tables: &Tables) -> u128 {
    tables.regions().map(|r| u128::from(r[2])).sum()
}

/// The regions of tables that have at most 4,096 cells.
pub fn regions(tables: &Tables) -> Vec<Region> {
    let mut start = 0;
    tables
        .regions()
        .map(|r| {
            let region = Region { name: r[0], kind: r[1], length: r[2], start };
            start += r[2];
            region
        })
        .collect()
}

pub fn lookup(tables: &Tables, name: u64) -> Option<Region> {
    regions(tables).into_iter().find(|region| region.name == name)
}

/// "Open zeroes each cell with its declared kind."
pub fn zeros(tables: &Tables) -> Vec<u64> {
    regions(tables).iter().flat_map(|r| [r.kind, 0].repeat(r.length as usize)).collect()
}

pub fn cell(cells: &[u64], at: u64) -> Cell {
    let at = at as usize;
    Cell { kind: cells[2 * at], word: cells[2 * at + 1] }
}

pub fn set_cell(cells: &mut [u64], at: u64, to: Cell) {
    let at = at as usize;
    cells[2 * at] = to.kind;
    cells[2 * at + 1] = to.word;
}

/// Whether a word is one of that kind: "BIT 1, OCTET 255".
pub fn word_fits(kind: u64, word: u64) -> bool {
    match kind {
        BIT => word <= 1,
        OCTET => word <= 255,
        _ => true,
    }
}
