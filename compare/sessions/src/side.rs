//! A machine with what was lent to it.
use crate::list::{Action, List};
use plain::Plain;
use tables::{blanks, Session, Tables};

/// Words on either side of a lent buffer that no call may touch.
const GUARD: usize = 4;

/// Out-arrays before a call, with words that none gives: what a refusal must not write is seen to be as it was.
const NO_LOOKED: [u64; 1] = [0xEEEE];
const NO_ENTRIES: [u64; 1] = [0xEEEE];
const NO_ERROR: [u64; 6] = [0xE; 6];
const NO_RAN: [u64; 3] = [0xEEEE; 3];

#[derive(Clone)]
pub struct Side<'a> {
    machine: &'a dyn Session,
    /// Guards included.
    memory: Vec<u64>,
    journal: Vec<u64>,
    pub position: [u64; 3],
    pub looked: [u64; 1],
    pub entries: [u64; 1],
    pub error: [u64; 6],
    /// Steps, stop, number.
    pub ran: [u64; 3],
}

fn guarded(words: &[u64]) -> Vec<u64> {
    [blanks(GUARD), words.to_vec(), blanks(GUARD)].concat()
}

fn lent(words: &mut [u64]) -> &mut [u64] {
    let length = words.len() - 2 * GUARD;
    &mut words[GUARD..][..length]
}

impl<'a> Side<'a> {
    pub fn new(machine: &'a dyn Session, list: &List) -> Self {
        let (memory, journal) = (guarded(&list.memory), guarded(&list.journal));
        let (position, looked, entries) = (list.position, NO_LOOKED, NO_ENTRIES);
        Side { machine, memory, journal, position, looked, entries, error: NO_ERROR, ran: NO_RAN }
    }

    pub fn memory(&self) -> &[u64] {
        &self.memory[GUARD..self.memory.len() - GUARD]
    }

    pub fn journal(&self) -> &[u64] {
        &self.journal[GUARD..self.journal.len() - GUARD]
    }

    /// The answer to a call; what a foreign writer does has none.
    pub fn act(&mut self, tables: &Tables, action: &Action) -> Option<u64> {
        let (memory, journal) = (lent(&mut self.memory), lent(&mut self.journal));
        let position = &mut self.position;
        (self.looked, self.entries, self.error, self.ran) = (NO_LOOKED, NO_ENTRIES, NO_ERROR, NO_RAN);
        match action {
            Action::Frame(row) => Some(self.machine.frame(tables, *row, &mut self.looked, &mut self.error)),
            Action::JournalLength => Some(self.machine.journal_length(tables, &mut self.entries, &mut self.error)),
            Action::Open => Some(self.machine.open(tables, memory, journal, position, &mut self.error)),
            Action::Forward(reply) => Some(self.machine.forward(tables, memory, journal, position, reply)),
            Action::Back => Some(self.machine.back(tables, memory, journal, position)),
            Action::Run(allowance) => {
                Some(self.machine.run(tables, memory, journal, position, *allowance, &mut self.ran))
            }
            Action::Memory(at, word) => {
                set(memory, *at, *word);
                None
            }
            Action::Journal(at, word) => {
                set(journal, *at, *word);
                None
            }
            Action::Position(new) => {
                *position = *new;
                None
            }
            Action::Table(..) => None,
        }
    }

    /// Memory, journal, guards and position are the other's.
    pub fn stands_as(&self, other: &Side) -> bool {
        self.memory == other.memory && self.journal == other.journal && self.position == other.position
    }

    /// The first word in which the library's side differs.
    pub fn differs(&self, library: &Side) -> Option<String> {
        words("position", &self.position, &library.position, 0)
            .or_else(|| words("nodes looked at", &self.looked, &library.looked, 0))
            .or_else(|| words("entries", &self.entries, &library.entries, 0))
            .or_else(|| words("type error", &self.error, &library.error, 0))
            .or_else(|| words("steps, stop, refusal", &self.ran, &library.ran, 0))
            .or_else(|| words("memory", &self.memory, &library.memory, GUARD))
            .or_else(|| words("journal", &self.journal, &library.journal, GUARD))
    }
}

/// The sum that 02 counts for a program that open accepts.
pub fn journal_length(tables: &Tables) -> Option<usize> {
    let mut entries = NO_ENTRIES;
    let number = Plain.journal_length(tables, &mut entries, &mut [0; 6]);
    (number == 0).then(|| entries[0] as usize)
}

fn set(words: &mut [u64], at: usize, word: u64) {
    if let Some(place) = words.get_mut(at) {
        *place = word;
    }
}

fn words(name: &str, ours: &[u64], theirs: &[u64], guard: usize) -> Option<String> {
    if ours == theirs {
        return None;
    }
    let at = (0..ours.len()).find(|&at| ours[at] != theirs[at])?;
    let (place, length) = (at as i64 - guard as i64, ours.len() - 2 * guard);
    Some(format!("{name}, word {place} of {length}: plain {:x}, library {:x}", ours[at], theirs[at]))
}
