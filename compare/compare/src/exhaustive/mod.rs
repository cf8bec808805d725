//! Every program of a small shape.
pub mod calls;
pub mod rows;
pub mod trees;

pub const UNDECLARED: u64 = 4;

/// The four kinds, then an undeclared name.
pub const CHOICES: [u64; 5] = [0, 1, 2, 3, UNDECLARED];
