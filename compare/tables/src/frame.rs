//! The check of one frame row, as the proved library, its unproved copies and the plain machine offer it.
use crate::Tables;

pub trait FrameCheck {
    /// Returns 0 or the refusal's number. The nodes looked at on 0 and on 5, the type error on 5.
    fn frame(&self, tables: &Tables, row: u64, looked: &mut [u64; 1], error: &mut [u64; 6]) -> u64;
}
