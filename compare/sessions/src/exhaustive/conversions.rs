//! Every CONVERT row by its operands: all pairs of declared kinds, undeclared names too, stepped with cells of any kind;
//! indices at and past the length; and each of its words made another.
use super::{opened, stepped, CHOICES, LENGTH};
use crate::list::List;

/// Cells that a foreign writer left in the source: each kind with words on either side of what it can hold, and a kind
/// that is none.
const SOURCES: [[u64; 2]; 19] = [
    [0, 1],
    [0, 2],
    [1, 0],
    [1, 1 << 63],
    [1, u64::MAX >> 1],
    [1, (1 << 53) + 1],
    [1, (1 << 53) + 3],
    [1, ((1 << 53) + 1u64).wrapping_neg()],
    [2, 255],
    [2, 256],
    [3, 0xBFEC_CCCC_CCCC_CCCD], // -0.9
    [3, 1 << 63],               // -0
    [3, 0x43DF_FFFF_FFFF_FFFF], // just below 2^63
    [3, 0x43E0_0000_0000_0000], // 2^63
    [3, 0xC3E0_0000_0000_0000], // -2^63
    [3, 0xC3E0_0000_0000_0001], // just below it
    [3, 0x7FF0_0000_0000_0001], // NaN
    [3, 0x7FF0_0000_0000_0000], // infinite
    [4, 0],
];

const DESTINATIONS: [[u64; 2]; 5] = [[0, 2], [1, 7], [2, 7], [3, 7], [4, 7]];

pub fn lists() -> Vec<List> {
    let pairs = CHOICES.iter().flat_map(|&to| CHOICES.iter().map(move |&from| (to, from)));
    let mut lists: Vec<List> = pairs.flat_map(|(to, from)| of_pair(to, from)).collect();
    lists.extend(other_words().map(opened));
    lists
}

/// Opened; and stepped without open over each cell there.
fn of_pair(to: u64, from: u64) -> Vec<List> {
    let mut lists: Vec<List> = [[0, 0], [1, LENGTH], [LENGTH, 1], [u64::MAX, 0], [0, u64::MAX]]
        .iter()
        .map(|&[i, j]| opened([16, 0, to, i, 0, 0, 2, from, j]))
        .collect();
    for source in SOURCES {
        // With one name the cell is the source's.
        let cells = DESTINATIONS.map(|destination| [([to, 1], destination), ([from, 1], source)]);
        lists.extend(cells.map(|cells| stepped([16, 0, to, 1, 0, 0, 2, from, 1], cells)));
    }
    lists
}

/// A row with one of its words made another. The source's words are those of a literal too, or of no source.
fn other_words() -> impl Iterator<Item = [u64; 9]> {
    let places = (0..9).flat_map(|at| [0, 1].map(|name| (at, name)));
    places.flat_map(|(at, name)| {
        [0, 1, 2, 3, 4, 15, 17, 1 << 63, u64::MAX].map(|word| {
            let mut row = [16, 0, 3, 1, 0, 0, 2, name, 0];
            row[at] = word;
            row
        })
    })
}
