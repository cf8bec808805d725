use crate::{sizes, MemoryReference};

/// The six tables of a program, lent: the rows of each, one after another. A row's words are those of `row()`; an array
/// of rows is lent by [`flattened`](crate::flattened).
///
/// ```
/// use mugwortlatch::{check, flattened, Instruction, Kind, MemoryReference, Region, Tables};
///
/// let n = MemoryReference { name: 1, index: 0 };
/// let regions = [Region { name: 1, kind: Kind::Integer, length: 3 }.row()];
/// let instructions = [
///     Instruction::Move { destination: n, source: 7.into() }.row(),
///     Instruction::Nop.row(),
/// ];
/// let tables =
///     Tables { regions: flattened(&regions), instructions: flattened(&instructions), ..Tables::default() };
/// assert_eq!(check(&tables), Ok(()));
/// ```
#[derive(Clone, Copy, Debug, Default, PartialEq, Eq)]
pub struct Tables<'a> {
    /// Rows of [`Region`](crate::Region).
    pub regions: &'a [u64],
    /// Rows of [`Extern`](crate::Extern).
    pub externs: &'a [u64],
    /// Rows of [`Parameter`](crate::Parameter).
    pub parameters: &'a [u64],
    /// Rows of [`Node`](crate::Node).
    pub nodes: &'a [u64],
    /// Rows of [`UnresolvedCallArgument`](crate::UnresolvedCallArgument).
    pub arguments: &'a [u64],
    /// Rows of [`Instruction`](crate::Instruction).
    pub instructions: &'a [u64],
}

impl Tables<'_> {
    /// The number of a reference's cell in the memory, where regions lie in table order; none where the name is not
    /// declared or the index is past its region.
    pub fn cell_of(&self, reference: MemoryReference) -> Option<usize> {
        let mut before: u64 = 0;
        for row in self.regions.chunks_exact(sizes::REGION_WIDTH) {
            let (name, length) = (row[0], row[2]);
            if name == reference.name {
                let index = Some(reference.index).filter(|index| *index < length)?;
                return usize::try_from(before.checked_add(index)?).ok();
            }
            before = before.checked_add(length)?;
        }
        None
    }
}
