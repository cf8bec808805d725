//! The library as both its proved build and its unproved copies offer it.
use crate::{FrameCheck, Tables};

/// The public calls on lent buffers. The proved library and its unproved copies offer them alike.
pub trait Console: FrameCheck {
    fn check(&self, tables: &Tables, error: &mut [u64; 6]) -> u64;

    fn resolve(&self, tables: &Tables, row: u64, rows: &mut [u64], count: &mut [u64; 1]) -> u64;

    fn access(&self, tables: &Tables, row: u64, reads: &mut [u64], writes: &mut [u64], counts: &mut [u64; 2]) -> u64;

    fn reference(&self, nodes: &[u64], first: u64, count: u64, place: &mut [u64; 1], found: &mut [u64; 3]) -> u64;

    fn references(
        &self,
        nodes: &[u64],
        first: u64,
        count: u64,
        place: &mut [u64; 1],
        rows: &mut [u64],
        handed: &mut [u64; 1],
    ) -> u64;
}
