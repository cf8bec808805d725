//! One row on the cells: refused, or its writes in order and where it leads. 11 comes before it and 13 after.
use crate::{
    call::{replied, resolve},
    convert::converted,
    labels::{label_row, labels_fit},
    layout::{cell, lookup, word_fits, Cell, Region},
    loader::need,
    operators::{arithmetic, compare, complement, logic, negated, value},
    rows::{instruction, names, written, Arithmetic, Comparison, Instruction, Logic, Reference, Source, Unary},
    BIT, INTEGER, OCTET, REAL,
};
use tables::Tables;

#[derive(Clone, Copy, Debug)]
pub struct Write {
    pub cell: u64,
    pub to: Cell,
}

pub struct Step {
    pub writes: Vec<Write>,
    /// The row that is current after it.
    pub next: usize,
}

pub fn step(tables: &Tables, cells: &[u64], row: usize, reply: &[u64]) -> Result<Step, u64> {
    let taken = instruction(tables, row);
    need(!matches!(taken, Instruction::Other), 9)?;
    need(labels_fit(tables), 20)?;
    if let Instruction::Call { name, first_argument, arguments } = taken {
        let writes = replied(&resolve(tables, name, first_argument, arguments)?, reply)?;
        return Ok(Step { writes, next: row + 1 });
    }
    need(reply.is_empty(), 17)?;
    need(names(taken).iter().all(|&name| lookup(tables, name).is_some()), 18)?;
    let machine = Machine { tables, cells };
    need(written(taken).iter().all(|r| r.index < machine.region(r.name).length), 14)?;
    Ok(Step { writes: machine.writes(taken)?, next: machine.next(taken, row)? })
}

/// Names are declared and written indices below their lengths.
struct Machine<'a> {
    tables: &'a Tables,
    cells: &'a [u64],
}

impl Machine<'_> {
    fn writes(&self, row: Instruction) -> Result<Vec<Write>, u64> {
        match row {
            Instruction::Arithmetic { operator, destination, source } => self.arithmetic(operator, destination, source),
            Instruction::Comparison { operator, destination, lhs, rhs } => {
                self.comparison(operator, destination, lhs, rhs)
            }
            Instruction::Logic { operator, destination, source } => self.logic(operator, destination, source),
            Instruction::Unary { operator, operand } => self.unary(operator, operand),
            Instruction::Move { destination, source } => {
                let place = self.place(destination);
                Ok(vec![Write { cell: place, to: self.copied(source, place)? }])
            }
            Instruction::Exchange { first, second } => {
                let (left, right) = (self.read(first)?, self.read(second)?);
                let (here, there) = (self.place(first), self.place(second));
                // "In either order": the first operand first, as the library chose.
                Ok(vec![Write { cell: here, to: right }, Write { cell: there, to: left }])
            }
            Instruction::Load { destination, source, offset } => {
                let from = self.indexed(self.region(source), self.offset(offset)?)?;
                let to = good(cell(self.cells, from))?;
                self.one(destination, to.kind, to.word)
            }
            Instruction::Store { destination, offset, source } => {
                let offset = self.offset(offset)?;
                if let Source::Reference(reference) = source {
                    self.read(reference)?;
                }
                let place = self.indexed(self.region(destination), offset)?;
                Ok(vec![Write { cell: place, to: self.copied(source, place)? }])
            }
            Instruction::Convert { destination, source } => {
                let to = converted(self.read(source)?)?;
                self.one(destination, to.kind, to.word)
            }
            // "Frame, NOP: no change, nothing looked up"; nor do jumps, labels and HALT change a cell.
            _ => Ok(Vec::new()),
        }
    }

    /// "A taken jump goes to its LABEL's row (WHEN on 1, UNLESS on 0), HALT to the end."
    fn next(&self, taken: Instruction, row: usize) -> Result<usize, u64> {
        let target = match taken {
            Instruction::Jump { label } => Some(label),
            Instruction::JumpWhen { condition, label } => (self.condition(condition)? == 1).then_some(label),
            Instruction::JumpUnless { condition, label } => (self.condition(condition)? == 0).then_some(label),
            Instruction::Halt => return Ok(self.tables.instructions().count()),
            _ => None,
        };
        Ok(target.map_or(row + 1, |label| label_row(self.tables, label)))
    }

    /// "Only a BIT cell there has a rule."
    fn condition(&self, at: Reference) -> Result<u64, u64> {
        let Cell { kind, word } = self.read(at)?;
        need(kind == BIT, 18)?;
        Ok(word)
    }

    fn arithmetic(&self, operator: Arithmetic, at: Reference, source: Source) -> Result<Vec<Write>, u64> {
        let (left, right) = (self.read(at)?, self.operand(source)?);
        let kind = left.kind;
        need(kind == right.kind && (kind == INTEGER || kind == REAL), 18)?;
        need(!(kind == INTEGER && operator == Arithmetic::Div && right.word == 0), 15)?;
        self.one(at, kind, arithmetic(operator, kind, left.word, right.word))
    }

    fn comparison(&self, operator: Comparison, at: Reference, lhs: Reference, rhs: Source) -> Result<Vec<Write>, u64> {
        let (left, right) = (self.read(lhs)?, self.operand(rhs)?);
        let fits = match rhs {
            Source::Integer(_) => left.kind != REAL,
            _ => left.kind == right.kind,
        };
        need(fits, 18)?;
        self.one(at, BIT, u64::from(compare(operator, left, right)))
    }

    fn logic(&self, operator: Logic, at: Reference, source: Source) -> Result<Vec<Write>, u64> {
        let (left, right) = (self.read(at)?, self.operand(source)?);
        need(left.kind != REAL && right.kind != REAL, 18)?;
        let shift = matches!(operator, Logic::Shl | Logic::Shr | Logic::Ashr);
        need(!(shift && value(right) < 0), 16)?;
        self.one(at, left.kind, logic(operator, left.kind, left.word, right.word))
    }

    fn unary(&self, operator: Unary, at: Reference) -> Result<Vec<Write>, u64> {
        let Cell { kind, word } = self.read(at)?;
        let result = match operator {
            Unary::Neg if kind == INTEGER || kind == REAL => negated(kind, word),
            Unary::Not if kind != REAL => complement(kind, word),
            _ => return Err(18),
        };
        self.one(at, kind, result)
    }

    fn one(&self, at: Reference, kind: u64, word: u64) -> Result<Vec<Write>, u64> {
        Ok(vec![Write { cell: self.place(at), to: Cell { kind, word } }])
    }

    fn region(&self, name: u64) -> Region {
        lookup(self.tables, name).expect("declared")
    }

    fn place(&self, at: Reference) -> u64 {
        self.region(at.name).start + at.index
    }

    fn read(&self, at: Reference) -> Result<Cell, u64> {
        good(cell(self.cells, self.place(at)))
    }

    /// The cell read, or the literal, which "counts as its own" kind.
    fn operand(&self, source: Source) -> Result<Cell, u64> {
        match source {
            Source::Integer(word) => Ok(Cell { kind: INTEGER, word }),
            Source::Real(word) => Ok(Cell { kind: REAL, word }),
            Source::Reference(reference) => self.read(reference),
        }
    }

    /// What move and store put into a cell: a cell's copy, or a literal by the target's kind alone.
    fn copied(&self, source: Source, target: u64) -> Result<Cell, u64> {
        let kind = cell(self.cells, target).kind;
        match source {
            Source::Reference(reference) => self.read(reference),
            Source::Integer(word) if kind < REAL => {
                need(literal_in_range(kind, word as i64), 24)?;
                Ok(Cell { kind, word })
            }
            Source::Real(word) if kind == REAL => Ok(Cell { kind, word }),
            _ => Err(18),
        }
    }

    /// The index that an INTEGER cell holds.
    fn offset(&self, at: Reference) -> Result<u64, u64> {
        let Cell { kind, word } = self.read(at)?;
        need(kind == INTEGER, 18)?;
        Ok(word)
    }

    /// A negative index is a word above any length.
    fn indexed(&self, region: Region, index: u64) -> Result<u64, u64> {
        need(index < region.length, 14)?;
        Ok(region.start + index)
    }
}

/// "A read cell with kind above 3 or a word beyond its kind has no rule."
fn good(read: Cell) -> Result<Cell, u64> {
    need(read.kind <= REAL && word_fits(read.kind, read.word), 18)?;
    Ok(read)
}

/// No "literal outside 0 to 1 for BIT or 0 to 255 for OCTET".
fn literal_in_range(kind: u64, literal: i64) -> bool {
    match kind {
        BIT => (0..=1).contains(&literal),
        OCTET => (0..=255).contains(&literal),
        _ => true,
    }
}
