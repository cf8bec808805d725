//! Plays a call list on both sides and compares everything after every call.
use crate::{
    claims::{broken, has_jumps},
    list::{set_table, Action, List},
    side::Side,
};
use plain::{journal_entries, History, Plain, ENTRY};
use tables::{Session, Tables, INSTRUCTION};

/// A call that both sides answered alike.
pub struct Call<'a> {
    pub action: &'a Action,
    pub number: u64,
    /// What frame gave.
    pub looked: u64,
    /// What journal_length gave.
    pub entries: u64,
    /// What run gave.
    pub ran: [u64; 3],
    /// The positions before and after.
    pub from: [u64; 3],
    pub to: [u64; 3],
    pub tables: &'a Tables,
    /// The row that frame was asked about, or that the position named before another call, if there is one.
    pub row: Option<&'a [u64]>,
    /// Demand 3's machine stands beside.
    pub replayed: bool,
    /// Where it does and the program has no jump: how many entries the journal has above the sum that 02 counts.
    pub spare: Option<i64>,
}

impl Call<'_> {
    /// The refusal that a run stopped at.
    pub fn stopped_by(&self) -> Option<u64> {
        match self.ran {
            [_, 3, number] => Some(number),
            _ => None,
        }
    }
}

/// What differs after a call, and the call's place in the list.
pub struct Difference {
    pub at: usize,
    pub what: String,
}

pub fn play(library: &dyn Session, list: &List, seen: &mut dyn FnMut(Call)) -> Option<Difference> {
    let mut both = Both::new(library, list);
    for (at, action) in list.actions.iter().enumerate() {
        let from = both.ours.position;
        let before = matches!(action, Action::Run(_)).then(|| both.theirs.clone());
        let number = match both.act(action) {
            Ok(Some(number)) => number,
            Ok(None) => continue,
            Err(what) => return Some(Difference { at, what }),
        };
        let call = both.call(action, number, from);
        let what = broken(&call, &both.lent, before.as_ref(), &both.theirs).or_else(|| both.outgrown(number));
        seen(call);
        if let Some(what) = what {
            return Some(Difference { at, what });
        }
    }
    None
}

pub fn row(tables: &Tables, number: u64) -> Option<&[u64]> {
    tables.instructions.chunks_exact(INSTRUCTION).nth(usize::try_from(number).ok()?)
}

/// The plain machine and the library, each lent tables of its own, and demand 3's machine beside them.
struct Both<'a> {
    tables: Tables,
    lent: Tables,
    ours: Side<'a>,
    theirs: Side<'a>,
    replay: Option<Replay>,
}

impl<'a> Both<'a> {
    fn new(library: &'a dyn Session, list: &List) -> Self {
        let (ours, theirs) = (Side::new(&Plain, list), Side::new(library, list));
        Both { tables: list.tables.clone(), lent: list.tables.clone(), ours, theirs, replay: None }
    }

    /// The answer to a call, or what differs; what a foreign writer does has no answer.
    fn act(&mut self, action: &Action) -> Result<Option<u64>, String> {
        match (self.ours.act(&self.tables, action), self.theirs.act(&self.lent, action)) {
            (Some(number), Some(got)) if number == got => self.answered(action, number).map(|()| Some(number)),
            (Some(number), Some(got)) => Err(format!("number: plain {number}, library {got}")),
            _ => {
                if let Action::Table(table, place, word) = action {
                    set_table(&mut self.tables, *table, *place, *word);
                    set_table(&mut self.lent, *table, *place, *word);
                }
                self.replay = None;
                Ok(None)
            }
        }
    }

    fn answered(&mut self, action: &Action, number: u64) -> Result<(), String> {
        same(self.ours.differs(&self.theirs))?;
        same((self.tables != self.lent).then(|| "a table was written".to_string()))?;
        if number == 0 && *action == Action::Open {
            self.replay = Some(Replay::new(&self.tables, &self.theirs));
        } else if let Some(replay) = &mut self.replay {
            same(replay.call(action, number, self.theirs.ran))?;
        }
        same(self.replay.as_ref().and_then(|replay| replay.differs(&self.theirs)))
    }

    fn call<'b>(&'b self, action: &'b Action, number: u64, from: [u64; 3]) -> Call<'b> {
        let Side { looked, entries, ran, position, .. } = self.ours;
        let spare = self.replay.as_ref().and_then(|replay| Some(replay.entries as i64 - replay.sum? as i64));
        Call {
            action,
            number,
            looked: looked[0],
            entries: entries[0],
            ran,
            from,
            to: position,
            tables: &self.tables,
            row: row(&self.tables, action.frame_row().unwrap_or(from[0])),
            replayed: self.replay.is_some(),
            spare,
        }
    }

    fn outgrown(&self, number: u64) -> Option<String> {
        self.replay.as_ref().and_then(|replay| replay.outgrown(number, &self.theirs))
    }
}

fn same(difference: Option<String>) -> Result<(), String> {
    difference.map_or(Ok(()), Err)
}

/// Demand 3's machine beside a session that only our calls wrote.
struct Replay {
    history: History,
    /// Memory past the cells as open left it.
    past: Vec<u64>,
    /// The journal's entries, and the sum that 02 counts for the program, which "holds without jumps".
    entries: u64,
    sum: Option<u64>,
}

impl Replay {
    fn new(tables: &Tables, opened: &Side) -> Self {
        let entries = opened.journal().len() / ENTRY;
        let history = History::new(tables, entries as u64);
        let cells = history.replay().0.len();
        let past = opened.memory()[cells..].to_vec();
        let sum = (!has_jumps(tables)).then(|| journal_entries(tables));
        Replay { history, past, entries: entries as u64, sum }
    }

    /// The answer must be the number, and a run's what it told.
    fn call(&mut self, action: &Action, number: u64, ran: [u64; 3]) -> Option<String> {
        let (answer, told) = match action {
            Action::Forward(reply) => (self.history.forward(reply), ran),
            Action::Back => (self.history.back(), ran),
            Action::Run(allowance) => (0, self.history.run(*allowance)),
            _ => (number, ran),
        };
        if answer != number {
            return Some(format!("number: demand 3's machine {answer}, library {number}"));
        }
        (told != ran).then(|| format!("steps, stop, refusal: demand 3's machine {told:?}, library {ran:?}"))
    }

    fn differs(&self, library: &Side) -> Option<String> {
        let (cells, position) = self.history.replay();
        let (here, past) = library.memory().split_at(cells.len());
        if position != library.position {
            return Some(format!("position: demand 3's machine {position:?}, library {:?}", library.position));
        }
        if let Some(at) = (0..cells.len()).find(|&at| cells[at] != here[at]) {
            return Some(format!("cell word {at}: demand 3's machine {:x}, library {:x}", cells[at], here[at]));
        }
        (past != self.past).then(|| "memory past the cells was written".to_string())
    }

    /// "With a journal of at least that many entries no sequence of forward and back meets refusal 13, and the entries
    /// in use never exceed the sum."
    fn outgrown(&self, number: u64, library: &Side) -> Option<String> {
        let (entries, sum, used) = (self.entries, self.sum?, library.position[2]);
        let met = number == 13 || library.ran[1..] == [3, 13];
        if met && entries >= sum {
            return Some(format!("02's claim: 13 with a journal of {entries} entries, the sum is {sum}"));
        }
        (used > sum).then(|| format!("02's claim: {used} entries in use, the sum is {sum}"))
    }
}
