//! Words in a row of each table and list, the limits in rows, and buffers that are always long enough.

/// Words in a region's row.
pub const REGION_WIDTH: usize = 3;
/// Words in an extern's row.
pub const EXTERN_WIDTH: usize = 4;
/// Words in a parameter's row.
pub const PARAMETER_WIDTH: usize = 5;
/// Words in a node's row.
pub const NODE_WIDTH: usize = 3;
/// Words in an argument's row.
pub const ARGUMENT_WIDTH: usize = 3;
/// Words in an instruction's row.
pub const INSTRUCTION_WIDTH: usize = 9;
/// Words in a cell.
pub const CELL_WIDTH: usize = 2;
/// Words in a journal entry.
pub const ENTRY_WIDTH: usize = 3;
/// Words in a reply's row.
pub const REPLY_WIDTH: usize = 4;
/// Words in a resolved row.
pub const RESOLVED_WIDTH: usize = 5;
/// Words in an argument error's row.
pub const ERROR_WIDTH: usize = 7;
/// Words in a reference's row.
pub const REFERENCE_WIDTH: usize = 2;

/// Most regions.
pub const REGION_LIMIT: usize = 64;
/// Most externs.
pub const EXTERN_LIMIT: usize = 32;
/// Most parameters.
pub const PARAMETER_LIMIT: usize = 256;
/// Most nodes.
pub const NODE_LIMIT: usize = 2_048;
/// Most arguments.
pub const ARGUMENT_LIMIT: usize = 1_024;
/// Most instructions.
pub const INSTRUCTION_LIMIT: usize = 512;
/// Most cells of all regions together.
pub const CELL_LIMIT: usize = 4_096;
/// Most journal entries.
pub const ENTRY_LIMIT: usize = 2_048;
/// Most rows of a reply.
pub const REPLY_LIMIT: usize = 64;
/// Most references of an expression: a tree's leaves are at most one more than its other nodes.
pub const REFERENCE_LIMIT: usize = NODE_LIMIT / 2;

/// A memory that is long enough for every program.
pub const MEMORY_WORDS: usize = CELL_LIMIT * CELL_WIDTH;
/// The longest journal.
pub const JOURNAL_WORDS: usize = ENTRY_LIMIT * ENTRY_WIDTH;
/// Rows that are long enough for every [`resolve`](crate::resolve): a row for each parameter and the return.
pub const RESOLVE_WORDS: usize = (PARAMETER_LIMIT + 1) * ERROR_WIDTH;
