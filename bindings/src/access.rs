use crate::{raw, words::first, Refusal, Tables};

/// The names that a CALL reads and writes, each ascending and each name once.
#[derive(Clone, Copy, Debug, PartialEq, Eq)]
pub struct AccessSets<'r> {
    /// The names that it reads.
    pub reads: &'r [u64],
    /// The names that it writes.
    pub writes: &'r [u64],
}

/// The names that the CALL in that row reads and writes. Each list takes a word an argument.
/// Refusals in order: 1, 2, 3, 6, 4.
pub fn access<'r>(
    tables: &Tables,
    row: u64,
    reads: &'r mut [u64],
    writes: &'r mut [u64],
) -> Result<AccessSets<'r>, Refusal> {
    let mut counts = [0; 2];
    match raw::access(tables, row, reads, writes, &mut counts) {
        0 => Ok(AccessSets { reads: first(reads, counts[0]), writes: first(writes, counts[1]) }),
        number => Err(Refusal::of_number(number)),
    }
}
