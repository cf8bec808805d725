//! The smallest call list that still differs: parts are taken away and words made plain as long as it does.
use crate::{
    list::{table_mut, Action, List},
    side::journal_length,
};
use plain::ENTRY;
use tables::{ARGUMENT, EXTERN, INSTRUCTION, NODE, PARAMETER, REGION};

pub fn shrink(mut list: List, differs: impl Fn(&List) -> bool) -> List {
    loop {
        let smaller = candidates(&list).find(|candidate| *candidate != list && differs(candidate));
        match smaller {
            Some(candidate) => list = candidate,
            None => return list,
        }
    }
}

/// Each table with its rows' width, in the order in which rows are taken away.
const TABLES: [(usize, usize); 6] =
    [(5, INSTRUCTION), (1, EXTERN), (0, REGION), (2, PARAMETER), (3, NODE), (4, ARGUMENT)];

/// Rows of a table, or words of a list, are tried one by one only up to so many.
const FEW: usize = 40;

/// Made one after the other: those of a long list with long replies are too many to hold.
type Candidates<'a> = Box<dyn Iterator<Item = List> + 'a>;

fn candidates(list: &List) -> Candidates<'_> {
    let smaller = fewer_actions(list).chain(fewer_steps(list)).chain(fewer_rows(list)).chain(less_lent(list));
    Box::new(smaller.chain(plainer_actions(list)).chain(plainer_words(list)))
}

/// The list with each change made alone.
fn changed<'a, T: 'a>(list: &'a List, changes: Vec<T>, change: impl Fn(&mut List, T) + 'a) -> Candidates<'a> {
    Box::new(changes.into_iter().map(move |of| {
        let mut candidate = list.clone();
        change(&mut candidate, of);
        candidate
    }))
}

fn fewer_actions(list: &List) -> Candidates<'_> {
    changed(list, parts(list.actions.len()), |l, part| drop(l.actions.drain(part)))
}

fn fewer_steps(list: &List) -> Candidates<'_> {
    changed(list, parts(list.tables.instructions.len() / INSTRUCTION), without_steps)
}

/// Instructions with the forwards that do them, if none was taken back, and with the entries that are counted for them: a
/// journal that is just long enough, or just too short, stays so.
fn without_steps(list: &mut List, steps: std::ops::Range<usize>) {
    let before = journal_length(&list.tables);
    drain(&mut list.tables.instructions, steps.clone(), INSTRUCTION);
    let mut forwards = 0;
    list.actions.retain(|action| {
        let forward = matches!(action, Action::Forward(_));
        forwards += usize::from(forward);
        !(forward && steps.contains(&(forwards - 1)))
    });
    if let (Some(before), Some(after)) = (before, journal_length(&list.tables)) {
        list.journal.truncate(list.journal.len().saturating_sub(ENTRY * (before - after)));
    }
}

fn plainer_actions(list: &List) -> Candidates<'_> {
    let actions = list.actions.iter().enumerate().flat_map(move |(i, action)| plainer_action(list, i, action));
    Box::new(actions.chain(changed(list, nearer(list.position), |l, position| l.position = position)))
}

fn plainer_action<'a>(list: &'a List, i: usize, action: &Action) -> Candidates<'a> {
    match action {
        Action::Forward(reply) => {
            let rows = changed(list, parts(reply.len() / 4), move |l, part| drain(reply_of(l, i), part, 4));
            Box::new(rows.chain(changed(list, plainer(reply), move |l, (at, word)| reply_of(l, i)[at] = word)))
        }
        Action::Position(position) => {
            changed(list, nearer(*position), move |l, position| l.actions[i] = Action::Position(position))
        }
        Action::Frame(row) => changed(list, less(*row), move |l, row| l.actions[i] = Action::Frame(row)),
        Action::Run(allowance) => {
            changed(list, less(*allowance), move |l, allowance| l.actions[i] = Action::Run(allowance))
        }
        _ => Box::new(std::iter::empty()),
    }
}

fn fewer_rows(list: &List) -> Candidates<'_> {
    let rows = TABLES.iter().flat_map(move |&(table, width)| {
        let rows = parts(table_mut(&mut list.tables.clone(), table).len() / width);
        changed(list, rows, move |l, part| drain(table_mut(&mut l.tables, table), part, width))
    });
    let first = if list.tables.instructions.len() >= INSTRUCTION { vec![()] } else { Vec::new() };
    Box::new(rows.chain(changed(list, first, |l, ()| without_first(l))))
}

/// The first instruction taken away, with every position and every frame's row moved.
fn without_first(list: &mut List) {
    drain(&mut list.tables.instructions, 0..1, INSTRUCTION);
    list.position[0] = list.position[0].saturating_sub(1);
    for action in &mut list.actions {
        if let Action::Position([row, ..]) | Action::Frame(row) = action {
            *row = row.saturating_sub(1);
        }
    }
}

fn less_lent(list: &List) -> Candidates<'_> {
    let journal = changed(list, parts(list.journal.len() / ENTRY), |l, part| drain(&mut l.journal, part, ENTRY));
    Box::new(journal.chain(changed(list, parts(list.memory.len()), |l, part| drain(&mut l.memory, part, 1))))
}

fn plainer_words(list: &List) -> Candidates<'_> {
    let tables = TABLES.iter().flat_map(move |&(table, _)| {
        let words = plainer(table_mut(&mut list.tables.clone(), table));
        changed(list, words, move |l, (at, word)| table_mut(&mut l.tables, table)[at] = word)
    });
    let memory = changed(list, plainer(&list.memory), |l, (at, word)| l.memory[at] = word);
    Box::new(tables.chain(memory).chain(changed(list, plainer(&list.journal), |l, (at, word)| l.journal[at] = word)))
}

/// Positions with one number less.
fn nearer(position: [u64; 3]) -> Vec<[u64; 3]> {
    let with = |word: usize, number| {
        let mut nearer = position;
        nearer[word] = number;
        nearer
    };
    (0..3).flat_map(|word| less(position[word]).into_iter().map(move |number| with(word, number))).collect()
}

/// Half as big, one less.
fn less(number: u64) -> Vec<u64> {
    vec![number / 2, number.saturating_sub(1)]
}

fn reply_of(list: &mut List, i: usize) -> &mut Vec<u64> {
    match &mut list.actions[i] {
        Action::Forward(reply) => reply,
        _ => unreachable!("a forward"),
    }
}

fn drain(words: &mut Vec<u64>, rows: std::ops::Range<usize>, width: usize) {
    words.drain(rows.start * width..rows.end * width);
}

/// Halves, quarters and so on; the last ones are single.
fn parts(length: usize) -> Vec<std::ops::Range<usize>> {
    let mut list = Vec::new();
    let mut size = length;
    while size > 0 && length / size <= FEW {
        list.extend((0..length / size).rev().map(|i| i * size..(i + 1) * size));
        size /= 2;
    }
    list
}

/// A word at a time made 0 or 1.
fn plainer(words: &[u64]) -> Vec<(usize, u64)> {
    let first = words.iter().enumerate().take(9 * FEW);
    first.flat_map(|(at, &word)| (0..word.min(2)).map(move |plain| (at, plain))).collect()
}
