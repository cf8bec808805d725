//! A call list: the tables, what is lent, and what is done one after the other.
use std::fmt::Write;
use tables::{quil_text, words_text, Tables};

#[derive(Clone, Debug, PartialEq)]
pub struct List {
    pub tables: Tables,
    /// The lent words before the first call.
    pub memory: Vec<u64>,
    pub journal: Vec<u64>,
    pub position: [u64; 3],
    pub actions: Vec<Action>,
}

#[derive(Clone, Debug, PartialEq)]
pub enum Action {
    /// Of that row.
    Frame(u64),
    JournalLength,
    Open,
    /// With its reply.
    Forward(Vec<u64>),
    Back,
    /// With its allowance.
    Run(u64),
    /// A foreign writer's word at that place of memory, journal or one of the six tables; and its position.
    Memory(usize, u64),
    Journal(usize, u64),
    Table(usize, usize, u64),
    Position([u64; 3]),
}

/// One of the six tables, in 01's order.
pub fn table_mut(tables: &mut Tables, table: usize) -> &mut Vec<u64> {
    match table {
        0 => &mut tables.regions,
        1 => &mut tables.externs,
        2 => &mut tables.parameters,
        3 => &mut tables.nodes,
        4 => &mut tables.arguments,
        _ => &mut tables.instructions,
    }
}

/// What a foreign writer does to a table.
pub fn set_table(tables: &mut Tables, table: usize, at: usize, word: u64) {
    if let Some(place) = table_mut(tables, table).get_mut(at) {
        *place = word;
    }
}

impl List {
    pub fn text(&self) -> String {
        let mut text = words_text(&self.tables);
        if plain::load(&self.tables).is_ok() {
            text += &quil_text(&self.tables);
        }
        let _ = writeln!(text, "memory of {} words: {}", self.memory.len(), some(&self.memory));
        let _ = writeln!(text, "journal of {} words: {}", self.journal.len(), some(&self.journal));
        let _ = writeln!(text, "first position {:?}", self.position);
        for action in &self.actions {
            let _ = writeln!(text, "{}", action.text());
        }
        text
    }
}

impl Action {
    /// One of ours, and not a foreign writer's.
    pub fn is_call(&self) -> bool {
        use Action::{Back, Forward, Frame, JournalLength, Open, Run};
        matches!(self, Frame(_) | JournalLength | Open | Forward(_) | Back | Run(_))
    }

    /// The row that frame is asked about.
    pub fn frame_row(&self) -> Option<u64> {
        match self {
            Action::Frame(row) => Some(*row),
            _ => None,
        }
    }

    pub fn text(&self) -> String {
        match self {
            Action::Frame(row) => format!("frame of row {row}"),
            Action::JournalLength => "journal_length".to_string(),
            Action::Open => "open".to_string(),
            Action::Forward(reply) if reply.is_empty() => "forward".to_string(),
            Action::Forward(reply) => format!("forward, reply of {} words: {}", reply.len(), some(reply)),
            Action::Back => "back".to_string(),
            Action::Run(allowance) => format!("run, allowance {allowance}"),
            Action::Memory(at, word) => format!("foreign memory word {at} = {word:x}"),
            Action::Journal(at, word) => format!("foreign journal word {at} = {word:x}"),
            Action::Table(table, at, word) => format!("foreign word {at} of table {table} = {word:x}"),
            Action::Position(position) => format!("foreign position {position:?}"),
        }
    }
}

/// The first words, in hexadecimal.
fn some(words: &[u64]) -> String {
    let shown: Vec<String> = words.iter().take(24).map(|word| format!("{word:x}")).collect();
    let rest = if words.len() > 24 { " .." } else { "" };
    shown.join(" ") + rest
}
