//! Demand 3's plain machine: its state is a history of replies, and its cells and its row are worked out anew each time.
use crate::{
    layout::{set_cell, zeros},
    moves::Stop,
    rows::{instruction, Instruction},
    step::{step, Step},
};
use tables::{Tables, INSTRUCTION};

/// Opened tables, the journal's entries, and "a history of replies, empty after open".
pub struct History {
    tables: Tables,
    entries: u64,
    replies: Vec<Vec<u64>>,
}

/// Where a history leads.
struct Place {
    cells: Vec<u64>,
    row: usize,
    used: u64,
}

impl Place {
    fn after(mut self, Step { writes, next }: Step) -> Self {
        self.used += writes.len() as u64 + 1;
        writes.iter().for_each(|write| set_cell(&mut self.cells, write.cell, write.to));
        self.row = next;
        self
    }
}

impl History {
    /// Of tables that were opened, with a journal of so many entries.
    pub fn new(tables: &Tables, entries: u64) -> Self {
        History { tables: tables.clone(), entries, replies: Vec::new() }
    }

    /// Its cells; and its position: "the current row", "the history's length, and journal changes plus 1 added up over
    /// its steps".
    pub fn replay(&self) -> (Vec<u64>, [u64; 3]) {
        let Place { cells, row, used } = self.place();
        (cells, [row as u64, self.replies.len() as u64, used])
    }

    /// "Zero with declared kinds", then a step with each reply; the row "is 0, then wherever each step leads".
    fn place(&self) -> Place {
        let start = Place { cells: zeros(&self.tables), row: 0, used: 0 };
        self.replies.iter().fold(start, |place, reply| {
            let done = step(&self.tables, &place.cells, place.row, reply).expect("done before");
            place.after(done)
        })
    }

    /// "If none refuses, its reply joins the history; else that number is the answer, the history kept."
    pub fn forward(&mut self, reply: &[u64]) -> u64 {
        match self.taken(&self.place(), reply) {
            Err(number) => number,
            Ok(_) => {
                self.replies.push(reply.to_vec());
                0
            }
        }
    }

    /// "A forward takes that row", and the looks from 11 on.
    fn taken(&self, place: &Place, reply: &[u64]) -> Result<Step, u64> {
        if place.row == self.rows() {
            return Err(11);
        }
        match step(&self.tables, &place.cells, place.row, reply)? {
            Step { writes, .. } if writes.len() as u64 + 1 > self.entries - place.used => Err(13),
            done => Ok(done),
        }
    }

    fn rows(&self) -> usize {
        self.tables.instructions.len() / INSTRUCTION
    }

    /// "Back drops the last reply; with none it is 12."
    pub fn back(&mut self) -> u64 {
        match self.replies.pop() {
            Some(_) => 0,
            None => 12,
        }
    }

    /// A run as forwards with empty replies. "Before each step, come allowance, end, CALL, refusal."
    pub fn run(&mut self, allowance: u64) -> [u64; 3] {
        let (mut place, mut steps) = (self.place(), 0);
        loop {
            let stop = match place.row {
                _ if steps == allowance => Stop::Allowance,
                row if row == self.rows() => Stop::End,
                row if matches!(instruction(&self.tables, row), Instruction::Call { .. }) => Stop::Call,
                _ => match self.taken(&place, &[]) {
                    Err(number) => Stop::Refusal(number),
                    Ok(done) => {
                        self.replies.push(Vec::new());
                        (place, steps) = (place.after(done), steps + 1);
                        continue;
                    }
                },
            };
            return stop.words(steps);
        }
    }
}
