//! Call lists by chance. The plain machine runs beside, so that replies and foreign words can fit where the list is.
use crate::{
    claims::has_jumps,
    damage::damage,
    list::{set_table, table_mut, Action, List},
    programs::program,
    replies::reply,
    side::{journal_length, Side},
    values,
};
use plain::{cell_count, Plain, ENTRIES, ENTRY};
use tables::{blanks, random_numbers::Random, Tables, INSTRUCTION};

/// How a list treats the machine.
#[derive(Clone, Copy, PartialEq)]
enum Manner {
    /// Opened, and then our calls alone.
    Ours,
    /// Opened, and a foreign writer between the calls.
    Foreign,
    /// Never opened: the first words and position are a foreign writer's.
    Unopened,
}

/// How its calls are drawn.
struct Course {
    manner: Manner,
    count: usize,
    /// How many of a hundred calls are forward.
    forward: u64,
    /// Towards the end: opened once, and every CALL gets a reply of the most rows.
    pressed: bool,
}

/// A pressed list is not longer.
const LONGEST: usize = 120;

const ALLOWANCES: [u64; 12] = [0, 1, 1, 2, 3, 5, 8, 20, 100, 2048, u64::MAX - 1, u64::MAX];

pub fn list(random: &mut Random) -> List {
    let tables = program(random);
    let manner = random.pick(&[Manner::Ours, Manner::Ours, Manner::Foreign, Manner::Foreign, Manner::Unopened]);
    let words = 2 * cell_count(&tables) as usize;
    let memory = words + random.pick(&[0, 0, 1, 2, 7]);
    let entries = match random.below(20) {
        few @ 0..=3 => few as usize,
        4 => ENTRIES,
        5..=9 => random.size(30),
        _ => random.size(300),
    };
    let mut list =
        List { tables, memory: blanks(memory), journal: lent(entries), position: [77, 78, 79], actions: Vec::new() };
    if manner == Manner::Unopened {
        unopened(random, &mut list);
    }
    let mut bought = false;
    if random.chance(15) {
        damage(random, &mut list);
    } else if manner == Manner::Ours {
        bought = buy(random, &mut list);
    }
    let course = course(random, manner, rows(&list.tables) as usize, bought);
    list.actions = actions(random, &list, &course);
    list
}

fn lent(entries: usize) -> Vec<u64> {
    blanks(ENTRY * entries)
}

/// Often just the journal that 02 says to buy, or one entry less, if the program is accepted, has no jump and there is
/// such a journal.
fn buy(random: &mut Random, list: &mut List) -> bool {
    if has_jumps(&list.tables) {
        return false;
    }
    let entries = match (journal_length(&list.tables), random.below(10)) {
        (Some(sum @ 0..=ENTRIES), 0..=3) => sum,
        (Some(sum @ 1..=ENTRIES), 4..=6) => sum - 1,
        _ => return false,
    };
    list.journal = lent(entries);
    true
}

/// With a journal that was bought mostly one that is pressed on.
fn course(random: &mut Random, manner: Manner, rows: usize, bought: bool) -> Course {
    if bought && random.chance(70) {
        return Course { manner, count: LONGEST.min(rows + rows / 3 + 4), forward: 95, pressed: true };
    }
    let most = random.pick(&[6, 30, 30, 80]);
    let forward = random.pick(&[60, 75, 90]);
    Course { manner, count: 1 + random.size(most), forward, pressed: false }
}

/// Cells of declared kinds or any, a journal of small words and a position inside.
fn unopened(random: &mut Random, list: &mut List) {
    let mut cells = Vec::new();
    for region in plain::regions(&list.tables) {
        for _ in 0..region.length {
            let kind = if random.chance(95) { region.kind } else { random.below(5) };
            let word = if random.chance(97) { values::fitting(random, kind) } else { values::any(random) };
            cells.extend([kind, word]);
        }
    }
    list.memory[..cells.len()].copy_from_slice(&cells);
    list.journal.iter_mut().for_each(|word| *word = random.below(6));
    list.position = inside(random, &list.tables, list.journal.len());
}

fn inside(random: &mut Random, tables: &Tables, journal: usize) -> [u64; 3] {
    let used = random.below(entries(journal) + 1);
    [random.below(rows(tables) + 1), random.below(used + 1), used]
}

fn rows(tables: &Tables) -> u64 {
    (tables.instructions.len() / INSTRUCTION) as u64
}

/// Of a journal of so many words.
fn entries(journal: usize) -> u64 {
    (journal / ENTRY) as u64
}

fn actions(random: &mut Random, list: &List, course: &Course) -> Vec<Action> {
    let mut tables = list.tables.clone();
    let mut side = Side::new(&Plain, list);
    let mut opened = course.manner == Manner::Unopened;
    let mut actions = Vec::new();
    while actions.len() < course.count {
        let action = match opened {
            _ if random.chance(5) => Action::Frame(chosen(random, &tables)),
            _ if random.chance(5) => Action::JournalLength,
            false => Action::Open,
            true if course.manner != Manner::Ours && random.chance(20) => foreign(random, &tables, &side),
            true if !course.pressed && random.chance(2) => Action::Open,
            true if random.chance(8) => Action::Run(random.pick(&ALLOWANCES)),
            true if random.chance(course.forward) => {
                let current = usize::try_from(side.position[0]).unwrap_or(usize::MAX);
                let row = tables.instructions.chunks_exact(INSTRUCTION).nth(current);
                let loaded = plain::load(&tables).is_ok();
                Action::Forward(reply(random, &tables, row.filter(|_| loaded), course.pressed))
            }
            true => Action::Back,
        };
        opened |= action == Action::Open;
        if let Action::Table(table, at, word) = action {
            set_table(&mut tables, table, at, word);
        }
        let answer = side.act(&tables, &action);
        actions.push(action);
        // Pressed again, a row would mostly meet the same.
        if course.pressed && matches!(answer, Some(14..=16 | 23 | 24)) {
            break;
        }
    }
    actions
}

/// Mostly a frame's row, if there is one; else any, absent ones too.
fn chosen(random: &mut Random, tables: &Tables) -> u64 {
    let frames: Vec<u64> = (0..).zip(tables.instructions()).filter(|(_, row)| row[0] == 8).map(|(i, _)| i).collect();
    let any = random.below(rows(tables) + 1);
    match random.choose(&frames) {
        Some(row) if random.chance(90) => *row,
        _ => random.pick(&[any, any, rows(tables), 1 << 32, u64::MAX]),
    }
}

/// What a foreign writer does: a cell's kind or word, a word of the journal's used part, the position, a table's word.
fn foreign(random: &mut Random, tables: &Tables, side: &Side) -> Action {
    let (memory, journal) = (side.memory().len(), side.journal().len());
    let used = journal.min(ENTRY * side.position[2].min(4096) as usize);
    let [row, steps, entries_used] = side.position;
    let outside = row > rows(tables) || steps > entries_used || entries_used > entries(journal);
    match random.below(22) {
        _ if outside && random.chance(60) => Action::Position(inside(random, tables, journal)),
        0..=4 if memory > 1 => Action::Memory(2 * random.size(memory / 2), random.below(6)),
        5..=8 if memory > 1 => Action::Memory(2 * random.size(memory / 2) + 1, values::any(random)),
        9..=12 if used >= ENTRY => in_the_journal(random, tables, used),
        13 if journal > 0 => Action::Journal(random.size(journal), values::any(random)),
        14..=18 => Action::Position(foreign_position(random, tables, side)),
        19..=20 => label_or_condition(random, tables),
        _ => {
            let table = random.size(6);
            let length = table_mut(&mut tables.clone(), table).len();
            Action::Table(table, random.size(length.max(1)), values::any(random))
        }
    }
}

/// Mostly the closing entry's: its count or the row left.
fn in_the_journal(random: &mut Random, tables: &Tables, used: usize) -> Action {
    let (closing, rows) = (used - ENTRY, rows(tables));
    match random.below(4) {
        0 => Action::Journal(closing, random.pick(&[0, 1, 2, 3, 4, 2048, u64::MAX])),
        1 => Action::Journal(closing + 1, random.pick(&[0, 1, rows.saturating_sub(1), rows, rows + 1, u64::MAX])),
        2 => Action::Journal(closing + 2, values::any(random)),
        _ => Action::Journal(random.size(used), random.pick(&[0, 1, 2, 3, 4, 2048, u64::MAX])),
    }
}

/// Any inside, or one word of it at an edge.
fn foreign_position(random: &mut Random, tables: &Tables, side: &Side) -> [u64; 3] {
    let ([row, steps, used], rows, entries) = (side.position, rows(tables), entries(side.journal().len()));
    match random.below(8) {
        0..=2 => inside(random, tables, side.journal().len()),
        3 => [row.wrapping_add(1), steps, used],
        4 => [row, steps, random.pick(&[0, entries, entries + 1])],
        5 => [random.pick(&[0, rows, rows + 1, u64::MAX]), steps, used],
        6 => [row, random.pick(&[0, used, used.wrapping_add(1), u64::MAX]), used],
        _ => [values::any(random), values::any(random), values::any(random)],
    }
}

/// A jump's or LABEL's label, or a condition's name, so that the tables still load.
fn label_or_condition(random: &mut Random, tables: &Tables) -> Action {
    let flow: Vec<(usize, &[u64])> =
        tables.instructions().enumerate().filter(|(_, row)| (11..=14).contains(&row[0])).collect();
    let Some(&(at, row)) = random.choose(&flow) else {
        return Action::Memory(0, values::any(random));
    };
    let other = random.pick(&flow).1[4];
    match (row[0], random.below(3)) {
        (12 | 13, 0) => {
            let names: Vec<u64> = tables.regions().map(|r| r[0]).collect();
            Action::Table(5, at * INSTRUCTION + 2, random.choose(&names).copied().unwrap_or(98))
        }
        _ => Action::Table(5, at * INSTRUCTION + 4, random.pick(&[98, other, other])),
    }
}
