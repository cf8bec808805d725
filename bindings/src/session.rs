use crate::{raw, sizes, Kind, MemoryReference, Ran, Refusal, Stop, Tables};
use core::fmt;

/// A session on a program: its tables, memory, journal and position, kept together. While it lives nothing else can
/// write them, and each call gets what the last one left: what the library's theorem about sessions asks for.
///
/// ```compile_fail,E0506
/// # use mugwortlatch::{Refusal, Session, Tables};
/// # let (mut memory, mut journal) = ([0; 2], [0; 3]);
/// let mut session = Session::open(Tables::default(), &mut memory, &mut journal)?;
/// memory[1] = 256; // a foreign writer, whom the compiler turns down
/// session.forward(&[])?;
/// # Ok::<(), Refusal>(())
/// ```
///
/// A host that keeps a session for good lends it what lives as long: statics, or what `Vec::leak` and `Box::leak` give.
#[derive(Debug)]
pub struct Session<'a> {
    tables: Tables<'a>,
    memory: &'a mut [u64],
    journal: &'a mut [u64],
    position: Position,
}

/// Where a session is.
#[derive(Clone, Copy, Debug, Default, PartialEq, Eq)]
#[non_exhaustive]
pub struct Position {
    /// The row that the next forward takes; at the end the number of rows.
    pub row: u64,
    /// Steps done and not taken back. In a loop they may be more than the rows.
    pub done: u64,
    /// Journal entries used.
    pub used: u64,
}

/// A row of an extern routine's reply.
#[derive(Clone, Copy, Debug, PartialEq, Eq)]
pub struct Reply {
    /// Which argument it writes: the number of its resolved row, from 0, the return included.
    pub argument: u64,
    /// The cell of a vector, from 0; 0 for a scalar.
    pub offset: u64,
    /// The argument's kind.
    pub kind: Kind,
    /// A word of that kind.
    pub word: u64,
}

/// What a cell of the memory holds.
#[derive(Clone, Copy, Debug, PartialEq, Eq)]
pub struct Cell {
    /// Its kind.
    pub kind: Kind,
    /// A BIT's 0 or 1, an OCTET's 0 to 255, an INTEGER's two's complement, a REAL's bits.
    pub word: u64,
}

impl<'a> Session<'a> {
    /// Opens a session at the program's start: every cell is zero, with its declared kind. `memory` takes two words a
    /// cell, `journal` three an entry; [`sizes::MEMORY_WORDS`](crate::sizes::MEMORY_WORDS) and
    /// [`sizes::JOURNAL_WORDS`](crate::sizes::JOURNAL_WORDS) always fit, and
    /// [`journal_length`](crate::journal_length) is how many entries are enough for a program without jumps.
    /// Refusals in order: 1, 2, 3, 10, 4, 5, 9, 20, 21, 22, then 6, 7, 8 by row.
    pub fn open(tables: Tables<'a>, memory: &'a mut [u64], journal: &'a mut [u64]) -> Result<Session<'a>, Refusal> {
        let mut session = Session { tables, memory, journal, position: Position::default() };
        session.reset()?;
        Ok(session)
    }

    /// Back to the program's start. What open accepted is not refused here.
    pub fn reset(&mut self) -> Result<Position, Refusal> {
        let (mut position, mut error) = ([0; 3], [0; 6]);
        match raw::open(&self.tables, self.memory, self.journal, &mut position, &mut error) {
            0 => Ok(self.moved(position)),
            number => Err(Refusal::with_error(number, error)),
        }
    }

    /// One step: the row at the position, with the rows of the extern routine's reply where it is a CALL, else none.
    /// A refusal changes nothing. After an accepted open these are left of its refusals, in order: 11; a CALL 14, 17,
    /// 13; else 17, 14, 24, 15, 16, 23, 13.
    pub fn forward(&mut self, reply: &[[u64; sizes::REPLY_WIDTH]]) -> Result<Position, Refusal> {
        let mut position = self.position.words();
        match raw::forward(&self.tables, self.memory, self.journal, &mut position, raw::flattened(reply)) {
            0 => Ok(self.moved(position)),
            number => Err(Refusal::of_number(number)),
        }
    }

    /// Takes the last step back. A refusal changes nothing; after an accepted open it is 12.
    pub fn back(&mut self) -> Result<Position, Refusal> {
        let mut position = self.position.words();
        match raw::back(&self.tables, self.memory, self.journal, &mut position) {
            0 => Ok(self.moved(position)),
            number => Err(Refusal::of_number(number)),
        }
    }

    /// Steps until one of the [`Stop`]s, at most `allowance` of them: what so many forwards with `&[]` leave. A stop is
    /// an answer and keeps the steps taken, also where a step's refusal is the stop; an allowance of 0 changes nothing.
    /// After an accepted open it is not refused.
    ///
    /// ```
    /// use mugwortlatch::{flattened, Instruction, Refusal, Session, Stop, Tables};
    ///
    /// // LABEL @5
    /// // JUMP @5
    /// let instructions = [Instruction::Label { label: 5 }, Instruction::Jump { label: 5 }].map(Instruction::row);
    /// let tables = Tables { instructions: flattened(&instructions), ..Tables::default() };
    /// let mut journal = [0; 300];
    /// let mut session = Session::open(tables, &mut [], &mut journal)?;
    /// let ran = session.run(99)?;
    /// assert_eq!((ran.steps, ran.stop, ran.position.row), (99, Stop::Allowance, 1));
    /// let ran = session.run(99)?;
    /// assert_eq!((ran.steps, ran.stop), (1, Stop::Refusal(Refusal::JournalFull)));
    /// # Ok::<(), Refusal>(())
    /// ```
    pub fn run(&mut self, allowance: u64) -> Result<Ran, Refusal> {
        let (mut position, mut ran) = (self.position.words(), [0; 3]);
        match raw::run(&self.tables, self.memory, self.journal, &mut position, allowance, &mut ran) {
            0 => {
                let [steps, stop, number] = ran;
                Ok(Ran { steps, stop: Stop::of_words(stop, number), position: self.moved(position) })
            }
            number => Err(Refusal::of_number(number)),
        }
    }

    /// Where the session is.
    pub fn position(&self) -> Position {
        self.position
    }

    /// The tables that were opened.
    pub fn tables(&self) -> &Tables<'a> {
        &self.tables
    }

    /// The lent memory: two words a cell, kind and word, regions in table order.
    pub fn memory(&self) -> &[u64] {
        self.memory
    }

    /// The lent journal: three words an entry, of which the position's are used.
    pub fn journal(&self) -> &[u64] {
        self.journal
    }

    /// What a reference's cell holds; none where the name is not declared or the index is past its region.
    pub fn cell(&self, reference: MemoryReference) -> Option<Cell> {
        let cell = self.tables.cell_of(reference)?;
        match *self.memory.chunks_exact(sizes::CELL_WIDTH).nth(cell)? {
            [kind, word] => Some(Cell { kind: Kind::of_word(kind), word }),
            _ => None,
        }
    }

    fn moved(&mut self, [row, done, used]: [u64; 3]) -> Position {
        self.position = Position { row, done, used };
        self.position
    }
}

impl Position {
    const fn words(self) -> [u64; 3] {
        [self.row, self.done, self.used]
    }
}

impl Reply {
    /// Its words.
    pub const fn row(self) -> [u64; sizes::REPLY_WIDTH] {
        [self.argument, self.offset, self.kind.word(), self.word]
    }
}

impl fmt::Display for Cell {
    fn fmt(&self, f: &mut fmt::Formatter<'_>) -> fmt::Result {
        match self.kind {
            Kind::Integer => write!(f, "INTEGER {}", self.word as i64),
            Kind::Real => write!(f, "REAL {:?}", f64::from_bits(self.word)),
            kind => write!(f, "{kind} {}", self.word),
        }
    }
}
