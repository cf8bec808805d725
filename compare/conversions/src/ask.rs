//! One CONVERT row by the public calls.
use tables::{Session, Tables};

#[derive(Clone, Copy, PartialEq)]
pub enum Direction {
    ToReal,
    ToInteger,
}

const INTEGER: u64 = 1;
const REAL: u64 = 3;

/// What the destination's cell holds before, as a foreign writer may leave it: it is only overwritten.
const HELD: [[u64; 2]; 6] = [[REAL, 7], [INTEGER, 7], [0, 1], [2, 300], [4, 5], [u64::MAX, 0]];

impl Direction {
    /// The source's kind and the destination's.
    fn kinds(self) -> [u64; 2] {
        match self {
            Direction::ToReal => [INTEGER, REAL],
            Direction::ToInteger => [REAL, INTEGER],
        }
    }

    pub fn text(self) -> &'static str {
        match self {
            Direction::ToReal => "INTEGER to REAL",
            Direction::ToInteger => "REAL to INTEGER",
        }
    }
}

/// What lent words and the position become.
#[derive(Clone, Debug, PartialEq)]
struct Lent {
    memory: [u64; 4],
    journal: [u64; 6],
    position: [u64; 3],
}

/// The destination's word after a forward over the row, or none where it is 23; taken back again. An error where anything
/// else was answered or left.
pub fn ask(library: &dyn Session, direction: Direction, word: u64, turn: usize) -> Result<Option<u64>, String> {
    let [from, to] = direction.kinds();
    let regions = vec![0, from, 1, 1, to, 1];
    let tables = Tables { regions, instructions: vec![16, 0, 1, 0, 0, 0, 2, 0, 0], ..Tables::default() };
    let mut lent = Lent { memory: [9; 4], journal: [8; 6], position: [7; 3] };
    let opened = library.open(&tables, &mut lent.memory, &lent.journal, &mut lent.position, &mut [0; 6]);
    expect("open", opened == 0 && lent.memory == [from, 0, to, 0], (opened, &lent))?;
    let held = HELD[turn % HELD.len()];
    lent.memory = [from, word, held[0], held[1]];
    let before = lent.clone();
    let number = library.forward(&tables, &mut lent.memory, &mut lent.journal, &mut lent.position, &[]);
    if number == 23 {
        expect("forward 23", lent == before, (number, &lent))?;
        return Ok(None);
    }
    let given = lent.memory[3];
    let journal = [1, held[0], held[1], 1, 0, 0];
    let after = Lent { memory: [from, word, to, given], journal, position: [1, 1, 2] };
    expect("forward", number == 0 && lent == after, (number, &lent))?;
    let number = library.back(&tables, &mut lent.memory, &lent.journal, &mut lent.position);
    expect("back", number == 0 && lent == Lent { journal, ..before }, (number, &lent))?;
    Ok(Some(given))
}

fn expect(call: &str, holds: bool, (number, left): (u64, &Lent)) -> Result<(), String> {
    match holds {
        true => Ok(()),
        false => Err(format!("{call} answers {number} and leaves {left:x?}")),
    }
}
