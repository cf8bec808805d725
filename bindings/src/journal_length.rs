use crate::{raw, Refusal, Tables};

/// How many journal entries are enough for a program without jumps: in a [`Session`](crate::Session) with at least so
/// many no [`forward`](crate::Session::forward) is refused with 13, and whatever the journal's length, no more are ever in
/// use. With jumps it is the same sum and no such bound: a loop uses entries each time round, at most 65 a step.
/// It may be above [`sizes::ENTRY_LIMIT`](crate::sizes::ENTRY_LIMIT), the most that open takes; 13 may then come.
/// Refusals in order: 1, 2, 3, 10, 5, 9, 20, 21, 22, then 6, 7, 8 by row.
///
/// ```
/// use mugwortlatch::{flattened, journal_length, Instruction, Tables};
///
/// let instructions = [Instruction::Nop.row(); 3];
/// let tables = Tables { instructions: flattened(&instructions), ..Tables::default() };
/// assert_eq!(journal_length(&tables), Ok(3));
/// ```
pub fn journal_length(tables: &Tables) -> Result<usize, Refusal> {
    let (mut entries, mut error) = ([0], [0; 6]);
    match raw::journal_length(tables, &mut entries, &mut error) {
        0 => Ok(usize::try_from(entries[0]).unwrap_or(usize::MAX)),
        number => Err(Refusal::with_error(number, error)),
    }
}
