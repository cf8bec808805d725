//! A plain machine for frame, journal_length, open, forward, back and run, written from the papers (01, 02) and
//! docs/DECISIONS.md: not from the library's definitions and not from quil-rs. It is slow and looks at everything anew in
//! each call.
mod call;
mod check;
mod convert;
mod history;
mod labels;
mod layout;
mod length;
mod loader;
mod moves;
mod operators;
mod rows;
mod session;
mod step;

pub use call::{resolve, Resolved};
pub use history::History;
pub use layout::{cell_count, regions, word_fits, Region};
pub use length::journal_entries;
pub use loader::{load, ENTRIES, ENTRY};
pub use session::Plain;

/// Kinds of regions and cells.
pub const BIT: u64 = 0;
pub const INTEGER: u64 = 1;
pub const OCTET: u64 = 2;
pub const REAL: u64 = 3;
