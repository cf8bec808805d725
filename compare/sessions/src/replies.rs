//! Replies by chance: fit ones by the CALL's resolved arguments, and unfit ones of every kind.
use crate::values;
use plain::{resolve, Resolved};
use tables::{random_numbers::Random, Tables};

const ROWS: usize = 64;

/// A reply to the row at that position; of the most rows where the list is pressed on.
pub fn reply(random: &mut Random, tables: &Tables, row: Option<&[u64]>, pressed: bool) -> Vec<u64> {
    let resolved = match row {
        Some(row) if row[0] == 9 => resolve(tables, row[2], row[3] as usize, row[4] as usize).unwrap_or_default(),
        // Outside a call.
        _ if random.chance(96) => return Vec::new(),
        _ => return vec![0, 0, 1, 1],
    };
    let (rows, spoiled) = match (pressed, random.below(30)) {
        (true, _) => (ROWS, 5),
        (false, 0) => (ROWS, 25),
        (false, 1) => (ROWS - 1, 25),
        (false, _) => (random.size(6), 25),
    };
    let mut reply = fit(random, &resolved, rows);
    if random.chance(spoiled) {
        spoil(random, &resolved, &mut reply);
    }
    reply
}

fn fit(random: &mut Random, resolved: &[Resolved], rows: usize) -> Vec<u64> {
    let places: Vec<(u64, u64, u64)> = (0..)
        .zip(resolved)
        .filter_map(|(argument, resolved)| match *resolved {
            Resolved::Vector { region, mutable: true } if region.length > 0 => {
                Some((argument, region.length, region.kind))
            }
            Resolved::Scalar { region, mutable: true, .. } => Some((argument, 1, region.kind)),
            _ => None,
        })
        .collect();
    let mut reply = Vec::new();
    for _ in 0..rows {
        if let Some(&(argument, length, kind)) = random.choose(&places) {
            reply.extend([argument, random.below(length), kind, values::fitting(random, kind)]);
        }
    }
    reply
}

fn spoil(random: &mut Random, resolved: &[Resolved], reply: &mut Vec<u64>) {
    let rows = reply.len() / 4;
    match random.below(8) {
        0 => drop(reply.pop()),
        1 => reply.push(0),
        2 if rows > 0 => {
            let row = reply[..4].to_vec();
            while reply.len() <= 4 * ROWS {
                reply.extend(&row);
            }
        }
        3 => {
            // Any argument, immutable ones and immediates too, or one past them.
            let argument = random.below(resolved.len() as u64 + 2);
            reply.extend([argument, 0, random.below(4), random.below(2)]);
        }
        _ if rows > 0 => {
            let row = &mut reply[random.size(rows) * 4..][..4];
            match random.below(4) {
                0 => row[0] = random.pick(&[row[0] + 1, resolved.len() as u64, u64::MAX]),
                1 => row[1] = random.pick(&[row[1] + 1, row[1] + 2, 1 << 63, u64::MAX]),
                2 => row[2] = random.below(5),
                _ => row[3] = values::any(random),
            }
        }
        _ => reply.extend([0, 0, 1, 1]),
    }
}
