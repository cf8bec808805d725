//! The bench's declarations and rows, for the tests: a BIT[2], n INTEGER[3], o OCTET[1], r REAL[2].
#![allow(dead_code)]
use mugwortlatch::{
    flattened, sizes, ArithmeticOperator, BinaryOperator, Instruction, Kind, MemoryReference, Position, Refusal,
    Region, Session, Source, Tables,
};

pub const A: u64 = 0;
pub const N: u64 = 1;
pub const O: u64 = 2;
pub const R: u64 = 3;
/// Declared nowhere.
pub const Q: u64 = 9;

pub static REGIONS: [[u64; sizes::REGION_WIDTH]; 4] = [
    Region { name: A, kind: Kind::Bit, length: 2 }.row(),
    Region { name: N, kind: Kind::Integer, length: 3 }.row(),
    Region { name: O, kind: Kind::Octet, length: 1 }.row(),
    Region { name: R, kind: Kind::Real, length: 2 }.row(),
];
pub const CELLS: usize = 8;

pub type Row = [u64; sizes::INSTRUCTION_WIDTH];

pub fn at(name: u64, index: u64) -> MemoryReference {
    MemoryReference { name, index }
}

pub fn add(destination: MemoryReference, source: impl Into<Source>) -> Row {
    Instruction::Arithmetic { operator: ArithmeticOperator::Add, destination, source: source.into() }.row()
}

pub fn divide(destination: MemoryReference, source: impl Into<Source>) -> Row {
    Instruction::Arithmetic { operator: ArithmeticOperator::Divide, destination, source: source.into() }.row()
}

pub fn logic(operator: BinaryOperator, destination: MemoryReference, source: impl Into<Source>) -> Row {
    Instruction::BinaryLogic { operator, destination, source: source.into() }.row()
}

pub fn mov(destination: MemoryReference, source: impl Into<Source>) -> Row {
    Instruction::Move { destination, source: source.into() }.row()
}

pub fn store(destination: u64, offset: MemoryReference, source: impl Into<Source>) -> Row {
    Instruction::Store { destination, offset, source: source.into() }.row()
}

pub fn call(name: u64, first_argument: u64, argument_count: u64) -> Row {
    Instruction::Call { name, first_argument, argument_count }.row()
}

pub fn label(label: u64) -> Row {
    Instruction::Label { label }.row()
}

pub fn jump(label: u64) -> Row {
    Instruction::Jump { label }.row()
}

pub fn jump_when(label: u64, condition: MemoryReference) -> Row {
    Instruction::JumpWhen { label, condition }.row()
}

pub fn jump_unless(label: u64, condition: MemoryReference) -> Row {
    Instruction::JumpUnless { label, condition }.row()
}

pub fn convert(destination: MemoryReference, source: MemoryReference) -> Row {
    Instruction::Convert { destination, source }.row()
}

/// The bench's regions with these instructions.
pub fn bench(instructions: &[Row]) -> Tables<'_> {
    Tables { regions: flattened(&REGIONS), instructions: flattened(instructions), ..Tables::default() }
}

/// What a session with room for that many journal entries comes to. Its buffers start with words of no meaning.
pub fn session<T>(tables: Tables, entries: usize, run: impl FnOnce(&mut Session) -> T) -> Result<T, Refusal> {
    let mut memory = [7; CELLS * sizes::CELL_WIDTH];
    let mut journal = vec![7; entries * sizes::ENTRY_WIDTH];
    let mut session = Session::open(tables, &mut memory, &mut journal)?;
    Ok(run(&mut session))
}

/// So many forwards, none refused.
pub fn steps(session: &mut Session, count: usize) {
    (0..count).for_each(|_| assert!(session.forward(&[]).is_ok()));
}

/// Memory, journal and position.
pub fn held(session: &Session) -> (Vec<u64>, Vec<u64>, Position) {
    (session.memory().to_vec(), session.journal().to_vec(), session.position())
}

/// The answer of a forward; a refused one leaves everything as it was.
pub fn tried(session: &mut Session, reply: &[[u64; sizes::REPLY_WIDTH]]) -> Result<Position, Refusal> {
    let before = held(session);
    let answer = session.forward(reply);
    if answer.is_err() {
        assert_eq!(before, held(session));
    }
    answer
}

pub fn word(session: &Session, reference: MemoryReference) -> u64 {
    session.cell(reference).unwrap().word
}

/// Row, steps not taken back, entries used.
pub fn position(session: &Session) -> (u64, u64, u64) {
    let position = session.position();
    (position.row, position.done, position.used)
}
