//! Every MOVE and STORE row of an integer literal at an edge, by its target: each declared kind and an undeclared name,
//! stepped with a target of any kind, an index of any and a journal that is long enough or not; opened; indices at and
//! past the length.
use super::{opened, stepped, CHOICES, LENGTH};
use crate::list::List;
use plain::{ENTRY, INTEGER};
use tables::blanks;

const LITERALS: [i64; 15] =
    [0, 1, 2, -1, 254, 255, 256, 257, 300, -255, -256, 1 << 32, i64::MIN, i64::MIN + 1, i64::MAX];

/// Cells that a foreign writer left in the target: each kind, of BIT and OCTET with a word beyond it, and kinds that are
/// none.
const TARGETS: [[u64; 2]; 6] = [[0, 2], [1, 7], [2, 256], [3, 7], [4, 7], [u64::MAX, 7]];

/// And in a STORE's offset: indices of both cells and past them, and kinds that are no index.
const OFFSETS: [[u64; 2]; 7] =
    [[INTEGER, 1], [INTEGER, 0], [INTEGER, LENGTH], [INTEGER, u64::MAX], [0, 1], [3, 1], [4, 1]];

pub fn lists() -> Vec<List> {
    let pairs = CHOICES.iter().flat_map(|&to| LITERALS.map(|literal| (to, literal as u64)));
    pairs.flat_map(|(to, literal)| of_literal(to, literal)).collect()
}

/// Opened; and stepped without open over each target.
fn of_literal(to: u64, literal: u64) -> Vec<List> {
    let move_into = |index| [4, 0, to, index, 0, 0, 0, literal, 0];
    let store_by = |name, index| [7, 0, to, 0, name, index, 0, literal, 0];
    let mut lists: Vec<List> = [0, 1, LENGTH, u64::MAX].iter().map(|&index| opened(move_into(index))).collect();
    lists.extend([0, LENGTH].map(|index| opened(store_by(INTEGER, index))));
    // The offset is a cell of another region than the target's.
    let by = (to + 1) % 4;
    for target in TARGETS {
        for offset in OFFSETS {
            lists.extend(with_journals(stepped(store_by(by, 0), [([to, 1], target), ([by, 0], offset)])));
        }
        lists.extend(with_journals(stepped(move_into(1), [([to, 1], target), ([by, 0], OFFSETS[0])])));
    }
    lists
}

/// With room for the row's two entries, and for one alone.
fn with_journals(list: List) -> [List; 2] {
    let short = List { journal: blanks(ENTRY), ..list.clone() };
    [list, short]
}
