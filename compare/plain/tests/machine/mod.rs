//! The plain machine with what is lent to it, over a BIT[2], n INTEGER[3], o OCTET[1], r REAL[2], and an extern that
//! takes nothing.
#![allow(dead_code)]
use plain::Plain;
use tables::{Session, Tables};

pub const A: u64 = 0;
pub const N: u64 = 1;
pub const O: u64 = 2;
pub const R: u64 = 3;
pub const UNDECLARED: u64 = 9;
pub const NOTHING: u64 = 8;

/// First cells of the regions' words in memory.
pub const N_WORD: usize = 2 * 2;
pub const O_WORD: usize = 2 * 5;
pub const R_WORD: usize = 2 * 6;

pub const NOP: [u64; 9] = [10, 0, 0, 0, 0, 0, 3, 0, 0];
pub const OTHER: [u64; 9] = [10, 1, 0, 0, 0, 0, 3, 0, 0];
pub const CALL: [u64; 9] = [9, 0, NOTHING, 0, 0, 0, 3, 0, 0];
pub const HALT: [u64; 9] = [15, 0, 0, 0, 0, 0, 3, 0, 0];

/// What an out-array holds before a call.
pub const BLANK: u64 = 7;

#[derive(Clone, Debug, PartialEq)]
pub struct Machine {
    pub tables: Tables,
    pub memory: Vec<u64>,
    pub journal: Vec<u64>,
    pub position: [u64; 3],
    pub error: [u64; 6],
}

/// The rows, with a journal of so many entries.
pub fn machine(rows: &[[u64; 9]], entries: usize) -> Machine {
    let (regions, externs) = (vec![A, 0, 2, N, 1, 3, O, 2, 1, R, 3, 2], vec![NOTHING, 4, 0, 0]);
    let tables = Tables { regions, externs, instructions: rows.concat(), ..Tables::default() };
    Machine { tables, memory: vec![0; 16], journal: vec![0; 3 * entries], position: [0; 3], error: [0; 6] }
}

/// The rows opened, with room for 64 entries.
pub fn opened(rows: &[[u64; 9]]) -> Machine {
    let mut machine = machine(rows, 64);
    assert_eq!(machine.open(), 0);
    machine
}

impl Machine {
    pub fn open(&mut self) -> u64 {
        Plain.open(&self.tables, &mut self.memory, &self.journal, &mut self.position, &mut self.error)
    }

    pub fn forward(&mut self) -> u64 {
        self.reply(&[])
    }

    pub fn reply(&mut self, reply: &[u64]) -> u64 {
        Plain.forward(&self.tables, &mut self.memory, &mut self.journal, &mut self.position, reply)
    }

    pub fn back(&mut self) -> u64 {
        Plain.back(&self.tables, &mut self.memory, &self.journal, &mut self.position)
    }

    /// The number, and steps, stop and refusal.
    pub fn run(&mut self, allowance: u64) -> (u64, [u64; 3]) {
        let mut ran = [BLANK; 3];
        let (memory, journal) = (&mut self.memory, &mut self.journal);
        (Plain.run(&self.tables, memory, journal, &mut self.position, allowance, &mut ran), ran)
    }

    /// So many forwards, none refused; the rows that they lead to.
    pub fn rows(&mut self, count: usize) -> Vec<u64> {
        let step = |machine: &mut Self| {
            assert_eq!(machine.forward(), 0);
            machine.position[0]
        };
        (0..count).map(|_| step(self)).collect()
    }

    /// Kind and word of a cell by its first word's place.
    pub fn cell(&self, at: usize) -> [u64; 2] {
        [self.memory[at], self.memory[at + 1]]
    }
}

pub fn move_literal(name: u64, literal: i64) -> [u64; 9] {
    [4, 0, name, 0, 0, 0, 0, literal as u64, 0]
}

pub fn jump(label: u64) -> [u64; 9] {
    [11, 0, 0, 0, label, 0, 3, 0, 0]
}

pub fn jump_when(label: u64, name: u64, index: u64) -> [u64; 9] {
    [12, 0, name, index, label, 0, 3, 0, 0]
}

pub fn jump_unless(label: u64, name: u64, index: u64) -> [u64; 9] {
    [13, 0, name, index, label, 0, 3, 0, 0]
}

pub fn label(label: u64) -> [u64; 9] {
    [14, 0, 0, 0, label, 0, 3, 0, 0]
}

pub fn convert(destination: [u64; 2], source: [u64; 2]) -> [u64; 9] {
    let ([to, i], [from, j]) = (destination, source);
    [16, 0, to, i, 0, 0, 2, from, j]
}

/// n[0] counted down from so many in steps of one, by a[0]; then n[1] becomes 5.
pub fn countdown(from: i64) -> [[u64; 9]; 6] {
    let (less, positive) = ([0, 1, N, 0, 0, 0, 0, 1, 0], [1, 2, A, 0, N, 0, 0, 0, 0]);
    [move_literal(N, from), label(50), less, positive, jump_when(50, A, 0), [4, 0, N, 1, 0, 0, 0, 5, 0]]
}
