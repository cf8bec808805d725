//! Every row of a sort, each as a program of that row alone over two cells of each kind.
mod conversions;
mod literals;

use crate::list::{Action, List};
use tables::{blanks, Tables};

/// The kinds' regions have their kind's number; each has two cells.
const UNDECLARED: u64 = 4;
const CHOICES: [u64; 5] = [0, 1, 2, 3, UNDECLARED];
const LENGTH: u64 = 2;

/// What the rows are, and their lists.
pub fn sets() -> [(&'static str, Vec<List>); 2] {
    [("CONVERT row", conversions::lists()), ("MOVE and STORE row of an integer literal at an edge", literals::lists())]
}

fn list(row: [u64; 9], actions: Vec<Action>) -> List {
    let regions = (0..4).flat_map(|kind| [kind, kind, LENGTH]).collect();
    let tables = Tables { regions, instructions: row.to_vec(), ..Tables::default() };
    List { tables, memory: blanks(16), journal: blanks(6), position: [0; 3], actions }
}

fn opened(row: [u64; 9]) -> List {
    let forward = Action::Forward(Vec::new());
    list(row, vec![Action::JournalLength, Action::Open, forward, Action::Back, Action::Run(2)])
}

/// Without open, over cells that a foreign writer left, by name and index. An undeclared name has none.
fn stepped(row: [u64; 9], cells: [([u64; 2], [u64; 2]); 2]) -> List {
    let forward = Action::Forward(Vec::new());
    let mut list = list(row, vec![forward, Action::Back, Action::Run(2)]);
    for ([name, index], cell) in cells {
        let at = 2 * (LENGTH * name + index) as usize;
        if let Some(there) = list.memory.get_mut(at..at + 2) {
            there.copy_from_slice(&cell);
        }
    }
    list
}
