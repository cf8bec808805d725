//! How long a journal to buy.
use crate::rows::{all, Instruction};
use tables::Tables;

/// "Count 1 entry for NOP and frame rows, 3 for EXCHANGE, 65 for CALL and 2 for every other row. Give the sum."
pub fn journal_entries(tables: &Tables) -> u64 {
    all(tables).map(entries_for).sum()
}

fn entries_for(row: Instruction) -> u64 {
    match row {
        Instruction::Nop => 1,
        Instruction::Frame { .. } => 1,
        Instruction::Exchange { .. } => 3,
        Instruction::Call { .. } => 65,
        _ => 2,
    }
}
