//! The raw C interface: console.h's functions on slices of words. Each returns 0 or the refusal's number and leaves
//! every lent word as console.h says; nothing is decoded. The rest of the crate is these calls with enums around them;
//! `compare/` takes them as they are, to hold each word against another machine's.
//!
//! All `unsafe` of the crate stands here. A call is total on the words it is lent: what it asks for is live, aligned
//! buffers that do not overlap and are not null, which slices are.
use crate::{foreign, sizes, Tables};
use core::mem::MaybeUninit;

/// Calls a function of console.h with the six tables before its other arguments.
macro_rules! with_tables {
    ($function:ident, $tables:expr $(, $more:expr)*) => {
        // Safety: slices are live, aligned and of these lengths; what is written is borrowed alone.
        unsafe {
            foreign::$function(
                $tables.regions.as_ptr(), $tables.regions.len(),
                $tables.externs.as_ptr(), $tables.externs.len(),
                $tables.parameters.as_ptr(), $tables.parameters.len(),
                $tables.nodes.as_ptr(), $tables.nodes.len(),
                $tables.arguments.as_ptr(), $tables.arguments.len(),
                $tables.instructions.as_ptr(), $tables.instructions.len()
                $(, $more)*
            )
        }
    };
}

/// The words of rows, one row after another, as a table lends them.
#[inline]
pub fn flattened<const WIDTH: usize>(rows: &[[u64; WIDTH]]) -> &[u64] {
    // Safety: arrays of words lie one after another without gaps, and all of them are borrowed.
    unsafe { core::slice::from_raw_parts(rows.as_ptr().cast(), rows.len() * WIDTH) }
}

/// The type check. It writes `error` on 5: kind, row, spot, src spot, two codes.
#[inline]
pub fn check(tables: &Tables, error: &mut [u64; 6]) -> u64 {
    with_tables!(console_check, tables, error.as_mut_ptr())
}

/// The type check of the frame in that row alone. It writes `looked` on 0 and on 5: nodes looked at; `error` on 5.
#[inline]
pub fn frame(tables: &Tables, row: u64, looked: &mut [u64; 1], error: &mut [u64; 6]) -> u64 {
    with_tables!(console_frame, tables, row, looked.as_mut_ptr(), error.as_mut_ptr())
}

/// The arguments of the CALL in that row. It writes `rows` and `count` on 0, resolved rows, and on 8, error rows.
#[inline]
pub fn resolve(tables: &Tables, row: u64, rows: &mut [u64], count: &mut [u64; 1]) -> u64 {
    with_tables!(console_resolve, tables, row, rows.as_mut_ptr(), rows.len(), count.as_mut_ptr())
}

/// The names that the CALL in that row reads and writes. It writes the lists and `counts` on 0: names read, names
/// written.
#[inline]
pub fn access(tables: &Tables, row: u64, reads: &mut [u64], writes: &mut [u64], counts: &mut [u64; 2]) -> u64 {
    with_tables!(
        console_access,
        tables,
        row,
        reads.as_mut_ptr(),
        reads.len(),
        writes.as_mut_ptr(),
        writes.len(),
        counts.as_mut_ptr()
    )
}

/// The next reference of an expression. It writes on 0 the new `place`, and `found`: 1, name, index, or 0, 0, 0 at the
/// end.
#[inline]
pub fn reference(nodes: &[u64], first: u64, node_count: u64, place: &mut [u64; 1], found: &mut [u64; 3]) -> u64 {
    let (place, found) = (place.as_mut_ptr(), found.as_mut_ptr());
    // Safety: the slice is live, aligned and of this length; place and found are borrowed alone.
    unsafe { foreign::console_reference(nodes.as_ptr(), nodes.len(), first, node_count, place, found) }
}

/// The next references of an expression, as many as `rows` has room for. It writes on 0 the new `place`, `count`, and
/// that many rows of name and index.
#[inline]
pub fn references(
    nodes: &[u64],
    first: u64,
    node_count: u64,
    place: &mut [u64; 1],
    rows: &mut [u64],
    count: &mut [u64; 1],
) -> u64 {
    let (place, count) = (place.as_mut_ptr(), count.as_mut_ptr());
    let (words, length) = (rows.as_mut_ptr(), rows.len());
    // Safety: slices are live, aligned and of these lengths; what is written is borrowed alone.
    unsafe { foreign::console_references(nodes.as_ptr(), nodes.len(), first, node_count, place, words, length, count) }
}

/// How many journal entries are enough for a program without jumps. It writes `entries` on 0, `error` on 5.
#[inline]
pub fn journal_length(tables: &Tables, entries: &mut [u64; 1], error: &mut [u64; 6]) -> u64 {
    with_tables!(console_journal_length, tables, entries.as_mut_ptr(), error.as_mut_ptr())
}

/// The cells zeroed, each with its declared kind. It writes `memory` and `position` on 0, `error` on 5.
#[inline]
pub fn open(
    tables: &Tables,
    memory: &mut [u64],
    journal: &[u64],
    position: &mut [u64; 3],
    error: &mut [u64; 6],
) -> u64 {
    with_tables!(
        console_open,
        tables,
        memory.as_mut_ptr(),
        memory.len(),
        journal.as_ptr(),
        journal.len(),
        position.as_mut_ptr(),
        error.as_mut_ptr()
    )
}

/// One step. It writes `memory`, `journal` and the new `position` on 0.
#[inline]
pub fn forward(
    tables: &Tables,
    memory: &mut [u64],
    journal: &mut [u64],
    position: &mut [u64; 3],
    reply: &[u64],
) -> u64 {
    with_tables!(
        console_forward,
        tables,
        memory.as_mut_ptr(),
        memory.len(),
        journal.as_mut_ptr(),
        journal.len(),
        position.as_mut_ptr(),
        reply.as_ptr(),
        reply.len()
    )
}

/// The last step taken back. It writes `memory` and the new `position` on 0.
#[inline]
pub fn back(tables: &Tables, memory: &mut [u64], journal: &[u64], position: &mut [u64; 3]) -> u64 {
    with_tables!(
        console_back,
        tables,
        memory.as_mut_ptr(),
        memory.len(),
        journal.as_ptr(),
        journal.len(),
        position.as_mut_ptr()
    )
}

/// Steps with empty replies, at most `allowance` of them. It writes on 0 `memory`, `journal`, the new `position`, and
/// `ran`: steps taken, which stop (0 allowance, 1 end, 2 before a CALL, 3 refusal), the refusal's number or 0.
#[inline]
pub fn run(
    tables: &Tables,
    memory: &mut [u64],
    journal: &mut [u64],
    position: &mut [u64; 3],
    allowance: u64,
    ran: &mut [u64; 3],
) -> u64 {
    with_tables!(
        console_run,
        tables,
        memory.as_mut_ptr(),
        memory.len(),
        journal.as_mut_ptr(),
        journal.len(),
        position.as_mut_ptr(),
        allowance,
        ran.as_mut_ptr()
    )
}

/// Room for the references of any expression, which is not cleared before the library writes there.
pub(crate) struct ReferenceRows([MaybeUninit<ReferenceRow>; sizes::REFERENCE_LIMIT]);

/// Name, index.
pub(crate) type ReferenceRow = [u64; sizes::REFERENCE_WIDTH];

impl ReferenceRows {
    pub const fn new() -> ReferenceRows {
        ReferenceRows([MaybeUninit::uninit(); sizes::REFERENCE_LIMIT])
    }

    /// All references of an expression, or the refusal's number.
    #[inline]
    pub fn filled(&mut self, nodes: &[u64], first: u64, node_count: u64) -> Result<&[ReferenceRow], u64> {
        let (mut place, mut count) = ([0], [0]);
        let (words, length) = (self.0.as_mut_ptr().cast(), self.0.len() * sizes::REFERENCE_WIDTH);
        // Safety: the room is live, aligned and of this length, borrowed alone, and no word of it is read.
        let number = unsafe {
            let (place, count) = (place.as_mut_ptr(), count.as_mut_ptr());
            foreign::console_references(nodes.as_ptr(), nodes.len(), first, node_count, place, words, length, count)
        };
        match number {
            0 => Ok(self.written(count[0])),
            number => Err(number),
        }
    }

    fn written(&self, count: u64) -> &[ReferenceRow] {
        let rows = usize::try_from(count).ok().and_then(|count| self.0.get(..count)).unwrap_or(&[]);
        // Safety: on 0 the library has written as many rows as it counts.
        unsafe { core::slice::from_raw_parts(rows.as_ptr().cast(), rows.len()) }
    }
}
