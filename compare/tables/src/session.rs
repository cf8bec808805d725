//! The calls of a session, and the journal's length before one, as the proved library, its unproved copies and the plain machine offer them.
use crate::{FrameCheck, Tables};

/// Each returns 0 or the refusal's number. A position is row, steps not taken back, journal entries used.
pub trait Session: FrameCheck {
    /// The entries on 0, the type error on 5.
    fn journal_length(&self, tables: &Tables, entries: &mut [u64; 1], error: &mut [u64; 6]) -> u64;

    /// The position on 0, the type error on 5.
    fn open(
        &self,
        tables: &Tables,
        memory: &mut [u64],
        journal: &[u64],
        position: &mut [u64; 3],
        error: &mut [u64; 6],
    ) -> u64;

    /// The new position on 0.
    fn forward(
        &self,
        tables: &Tables,
        memory: &mut [u64],
        journal: &mut [u64],
        position: &mut [u64; 3],
        reply: &[u64],
    ) -> u64;

    /// The new position on 0.
    fn back(&self, tables: &Tables, memory: &mut [u64], journal: &[u64], position: &mut [u64; 3]) -> u64;

    /// On 0 the new position, and steps taken, which stop (0 allowance, 1 end, 2 before a CALL, 3 refusal), the
    /// refusal's number or 0.
    fn run(
        &self,
        tables: &Tables,
        memory: &mut [u64],
        journal: &mut [u64],
        position: &mut [u64; 3],
        allowance: u64,
        ran: &mut [u64; 3],
    ) -> u64;
}
