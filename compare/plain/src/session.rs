//! Frame and journal_length on the tables alone; open, forward, back and run on lent memory and a lent journal.
use crate::{
    call::resolve,
    check::{frame_error, type_error},
    convert::conversions_fit,
    labels::{conditions_fit, labels_fit},
    layout::zeros,
    length::journal_entries,
    loader::{lent, load, load_frame, need},
    moves::{back, forward, run},
    rows::{all, Instruction},
};
use tables::{FrameCheck, Session, Tables};

/// The machine on lent buffers.
pub struct Plain;

impl FrameCheck for Plain {
    fn frame(&self, tables: &Tables, row: u64, looked: &mut [u64; 1], error: &mut [u64; 6]) -> u64 {
        if let Err(number) = load_frame(tables, row) {
            return number;
        }
        let (found, count) = frame_error(tables, row as usize);
        *looked = [count];
        match found {
            Some(found) => {
                *error = found;
                5
            }
            None => 0,
        }
    }
}

impl Session for Plain {
    /// "A program that open would turn down gets open's number, buffers apart."
    fn journal_length(&self, tables: &Tables, length: &mut [u64; 1], error: &mut [u64; 6]) -> u64 {
        let buffers_apart = |_| Ok(());
        answer(looks(tables, buffers_apart, error).map(|_| [journal_entries(tables)]), length)
    }

    fn open(
        &self,
        tables: &Tables,
        memory: &mut [u64],
        journal: &[u64],
        position: &mut [u64; 3],
        error: &mut [u64; 6],
    ) -> u64 {
        answer(open(tables, memory, journal, error), position)
    }

    fn forward(
        &self,
        tables: &Tables,
        memory: &mut [u64],
        journal: &mut [u64],
        position: &mut [u64; 3],
        reply: &[u64],
    ) -> u64 {
        answer(forward(tables, memory, journal, *position, reply), position)
    }

    fn back(&self, tables: &Tables, memory: &mut [u64], journal: &[u64], position: &mut [u64; 3]) -> u64 {
        answer(back(tables, memory, journal, *position), position)
    }

    fn run(
        &self,
        tables: &Tables,
        memory: &mut [u64],
        journal: &mut [u64],
        position: &mut [u64; 3],
        allowance: u64,
        ran: &mut [u64; 3],
    ) -> u64 {
        let done = run(tables, memory, journal, *position, allowance);
        answer(done.map(|(new, _)| new), position);
        answer(done.map(|(_, words)| words), ran)
    }
}

/// An out-array is written on 0 alone.
fn answer<const N: usize>(done: Result<[u64; N], u64>, out: &mut [u64; N]) -> u64 {
    match done {
        Ok(new) => {
            *out = new;
            0
        }
        Err(number) => number,
    }
}

/// Open's looks: 1, 2, 3, 10, those at the buffers for so many cells, then 5, 9, 20, 21, 22, and 6, 7, 8 by row. The
/// number of cells.
fn looks(tables: &Tables, buffers: impl Fn(usize) -> Result<(), u64>, error: &mut [u64; 6]) -> Result<usize, u64> {
    let cells = load(tables)?;
    buffers(cells)?;
    if let Some(found) = type_error(tables) {
        *error = found;
        return Err(5);
    }
    need(all(tables).all(|row| !matches!(row, Instruction::Other)), 9)?;
    need(labels_fit(tables), 20)?;
    need(conditions_fit(tables), 21)?;
    need(conversions_fit(tables), 22)?;
    for row in all(tables) {
        if let Instruction::Call { name, first_argument, arguments } = row {
            resolve(tables, name, first_argument, arguments)?;
        }
    }
    Ok(cells)
}

fn open(tables: &Tables, memory: &mut [u64], journal: &[u64], error: &mut [u64; 6]) -> Result<[u64; 3], u64> {
    let cells = looks(tables, |cells| lent(cells, memory, journal), error)?;
    memory[..2 * cells].copy_from_slice(&zeros(tables));
    Ok([0, 0, 0])
}
