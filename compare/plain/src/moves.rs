//! The calls that move a session: forward, back and run.
use crate::{
    layout::{cell, set_cell, Cell},
    loader::{lent, load, need, ENTRY},
    rows::{instruction, Instruction},
    step::{step, Step},
};
use tables::{Tables, INSTRUCTION};

/// Cells and rows of the program, entries of the journal.
struct Sizes {
    cells: usize,
    rows: u64,
    entries: u64,
}

/// The looks of every call that moves the session: 1, 2, 3, 10, 4, and 19 of the position.
fn moving(tables: &Tables, memory: &[u64], journal: &[u64], position: [u64; 3]) -> Result<Sizes, u64> {
    let cells = load(tables)?;
    lent(cells, memory, journal)?;
    let (rows, entries) = ((tables.instructions.len() / INSTRUCTION) as u64, (journal.len() / ENTRY) as u64);
    let [row, steps, used] = position;
    need(row <= rows && used <= entries, 19)?;
    // 02: "more steps than entries is 19".
    need(steps <= used, 19)?;
    Ok(Sizes { cells, rows, entries })
}

pub fn forward(
    tables: &Tables,
    memory: &mut [u64],
    journal: &mut [u64],
    position: [u64; 3],
    reply: &[u64],
) -> Result<[u64; 3], u64> {
    let sizes = moving(tables, memory, journal, position)?;
    advance(tables, &sizes, memory, journal, position, reply)
}

/// Forward's looks from 11 on, and the step.
fn advance(
    tables: &Tables,
    sizes: &Sizes,
    memory: &mut [u64],
    journal: &mut [u64],
    [row, steps, used]: [u64; 3],
    reply: &[u64],
) -> Result<[u64; 3], u64> {
    let Sizes { cells, rows, entries } = *sizes;
    need(row < rows, 11)?;
    let Step { writes, next } = step(tables, &memory[..2 * cells], row as usize, reply)?;
    let changes = writes.len() as u64;
    need(changes + 1 <= entries - used, 13)?;
    let mut log = Vec::new();
    for write in writes {
        let Cell { kind, word } = cell(memory, write.cell);
        log.extend([write.cell, kind, word]);
        set_cell(memory, write.cell, write.to);
    }
    // "A closing entry's second word is the row left."
    log.extend([changes, row, 0]);
    journal[ENTRY * used as usize..][..log.len()].copy_from_slice(&log);
    Ok([next as u64, steps + 1, used + changes + 1])
}

pub fn back(tables: &Tables, memory: &mut [u64], journal: &[u64], position: [u64; 3]) -> Result<[u64; 3], u64> {
    let Sizes { cells, rows, .. } = moving(tables, memory, journal, position)?;
    let [_, steps, used] = position;
    need(steps > 0, 12)?;
    need(used > 0, 19)?;
    let closing = used - 1;
    let entry = ENTRY * closing as usize;
    let (changes, left) = (journal[entry], journal[entry + 1]);
    need(changes <= closing, 19)?;
    // "An absent row is 19."
    need(left < rows, 19)?;
    let first = closing - changes;
    let log = &journal[ENTRY * first as usize..entry];
    need(log.chunks(ENTRY).all(|entry| entry[0] < cells as u64), 19)?;
    for entry in log.chunks(ENTRY).rev() {
        set_cell(memory, entry[0], Cell { kind: entry[1], word: entry[2] });
    }
    Ok([left, steps - 1, first])
}

/// Why a run ended.
#[derive(Clone, Copy)]
pub enum Stop {
    Allowance,
    End,
    Call,
    Refusal(u64),
}

impl Stop {
    /// After so many steps.
    pub fn words(self, steps: u64) -> [u64; 3] {
        match self {
            Stop::Allowance => [steps, 0, 0],
            Stop::End => [steps, 1, 0],
            Stop::Call => [steps, 2, 0],
            Stop::Refusal(number) => [steps, 3, number],
        }
    }
}

/// The new position, and steps, stop and number.
type Ran = ([u64; 3], [u64; 3]);

/// "It makes forward's looks up to 19 first; then, before each step, come allowance, end, CALL, refusal."
pub fn run(
    tables: &Tables,
    memory: &mut [u64],
    journal: &mut [u64],
    mut position: [u64; 3],
    allowance: u64,
) -> Result<Ran, u64> {
    let sizes = moving(tables, memory, journal, position)?;
    let mut steps = 0;
    let stop = loop {
        if steps == allowance {
            break Stop::Allowance;
        }
        if position[0] == sizes.rows {
            break Stop::End;
        }
        if matches!(instruction(tables, position[0] as usize), Instruction::Call { .. }) {
            break Stop::Call;
        }
        match advance(tables, &sizes, memory, journal, position, &[]) {
            Ok(new) => (position, steps) = (new, steps + 1),
            Err(number) => break Stop::Refusal(number),
        }
    };
    Ok((position, stop.words(steps)))
}
