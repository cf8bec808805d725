//! Lists that are refused before they run: each a cause of the loader's, or of the program's author.
use crate::{list::table_mut, list::List, values};
use tables::{random_numbers::Random, ARGUMENT, EXTERN, INSTRUCTION, NODE, PARAMETER, REGION};

const WIDTHS: [usize; 6] = [REGION, EXTERN, PARAMETER, NODE, ARGUMENT, INSTRUCTION];
const LIMITS: [usize; 6] = [64, 32, 256, 2048, 1024, 512];
const CELLS: u64 = 4096;

pub fn damage(random: &mut Random, list: &mut List) {
    match random.below(11) {
        0 => not_whole(random, list),
        1 => over_limit(random, list),
        2 | 3 => foreign_word(random, list),
        4 => same_name(random, list),
        5 => cells(random, list),
        6 => lent(random, list),
        7 => instruction_word(random, list),
        8 | 9 => label_or_condition(random, list),
        _ => argument_or_parameter(random, list),
    }
}

fn not_whole(random: &mut Random, list: &mut List) {
    let table = table_mut(&mut list.tables, random.size(6));
    match random.below(2) {
        0 => table.push(random.below(3)),
        _ => drop(table.pop()),
    }
}

/// One row too many; the row repeats one that is there.
fn over_limit(random: &mut Random, list: &mut List) {
    let which = random.size(6);
    let (width, table) = (WIDTHS[which], table_mut(&mut list.tables, which));
    let row = match table.len() >= width {
        true => table[..width].to_vec(),
        false => vec![0; width],
    };
    while table.len() <= LIMITS[which] * width {
        table.extend(&row);
    }
}

fn foreign_word(random: &mut Random, list: &mut List) {
    let table = table_mut(&mut list.tables, random.size(6));
    if !table.is_empty() {
        let at = random.size(table.len());
        let near = [table[at].wrapping_add(1), table[at].wrapping_sub(1)];
        table[at] = match random.below(2) {
            0 => random.pick(&near),
            _ => values::any(random),
        };
    }
}

fn same_name(random: &mut Random, list: &mut List) {
    let which = random.size(2);
    let (width, table) = (WIDTHS[which], table_mut(&mut list.tables, which));
    let rows = table.len() / width;
    if rows > 1 {
        table[random.size(rows) * width] = table[random.size(rows) * width];
    } else if rows == 1 {
        table.extend_from_within(..width);
    }
}

/// One cell too many, or so many that their sum wraps.
fn cells(random: &mut Random, list: &mut List) {
    let regions = &mut list.tables.regions;
    if regions.is_empty() {
        regions.extend([1, 1, 0]);
    }
    let rest: u64 = regions.chunks(REGION).skip(1).map(|r| r[2]).sum();
    regions[2] = random.pick(&[CELLS + 1 - rest, u64::MAX, rest.wrapping_neg(), CELLS - rest]);
}

/// Too short, not whole entries or too long.
fn lent(random: &mut Random, list: &mut List) {
    match random.below(3) {
        0 => {
            let words = 2 * plain::cell_count(&list.tables) as usize;
            list.memory.truncate(words.saturating_sub(1 + random.size(2)));
        }
        1 => list.journal.push(7),
        _ => list.journal.resize(2049 * 3, 7),
    }
}

fn instruction_word(random: &mut Random, list: &mut List) {
    let rows = list.tables.instructions.len() / INSTRUCTION;
    if rows == 0 {
        return;
    }
    let row = &mut list.tables.instructions[random.size(rows) * INSTRUCTION..][..INSTRUCTION];
    match (row[0], random.below(3)) {
        (_, 0) => row.copy_from_slice(&[10, 1, 0, 0, 0, 0, 3, 0, 0]),
        (9, 1) => row[2] = 98,
        (9, _) => row[4] = row[4].saturating_sub(1),
        (8 | 10..=15, _) => {}
        // An undeclared name, or another region's.
        (_, 1) => row[2] = random.below(200),
        _ => row[random.pick(&[2, 4, 7])] = list.tables.regions.first().copied().unwrap_or(0),
    }
}

/// Another label for one, or a condition of any region or none.
fn label_or_condition(random: &mut Random, list: &mut List) {
    let names: Vec<u64> = list.tables.regions().map(|r| r[0]).collect();
    let rows = &mut list.tables.instructions;
    let flow: Vec<usize> = (0..rows.len()).step_by(INSTRUCTION).filter(|&at| (11..=14).contains(&rows[at])).collect();
    let labels: Vec<u64> = flow.iter().map(|at| rows[at + 4]).collect();
    if let Some(&at) = random.choose(&flow) {
        let other = random.pick(&labels);
        match (rows[at], random.below(2)) {
            (12 | 13, 0) => rows[at + 2] = random.choose(&names).copied().unwrap_or(98),
            _ => rows[at + 4] = random.pick(&[98, other]),
        }
    }
}

fn argument_or_parameter(random: &mut Random, list: &mut List) {
    let (which, width) = random.pick(&[(2, PARAMETER), (4, ARGUMENT)]);
    let table = table_mut(&mut list.tables, which);
    if !table.is_empty() {
        let row = random.size(table.len() / width) * width;
        match (which, random.below(2)) {
            (2, 0) => table[row + 3] = random.below(4),
            (2, _) => table[row + 1] = 1,
            (_, 0) => table[row + 1] = random.below(200),
            _ => table[row] = random.pick(&[1, 2]),
        }
    }
}
