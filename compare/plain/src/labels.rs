//! Labels and what their rows lead to.
use crate::{
    layout::lookup,
    rows::{all, Instruction},
    BIT,
};
use tables::Tables;

/// No "label twice or a target absent anywhere in the program".
pub fn labels_fit(tables: &Tables) -> bool {
    let mut labels = labels(tables);
    labels.sort_unstable();
    let twice = labels.windows(2).any(|pair| pair[0] == pair[1]);
    !twice && all(tables).filter_map(target).all(|label| labels.binary_search(&label).is_ok())
}

/// No "condition undeclared or not BIT".
pub fn conditions_fit(tables: &Tables) -> bool {
    all(tables).all(|row| match row {
        Instruction::JumpWhen { condition, .. } | Instruction::JumpUnless { condition, .. } => {
            lookup(tables, condition.name).is_some_and(|region| region.kind == BIT)
        }
        _ => true,
    })
}

/// The row of the LABEL, which is there.
pub fn label_row(tables: &Tables, wanted: u64) -> usize {
    all(tables).position(|row| matches!(row, Instruction::Label { label } if label == wanted)).expect("looked for")
}

fn labels(tables: &Tables) -> Vec<u64> {
    all(tables)
        .filter_map(|row| match row {
            Instruction::Label { label } => Some(label),
            _ => None,
        })
        .collect()
}

/// Where a jump goes.
fn target(row: Instruction) -> Option<u64> {
    match row {
        Instruction::Jump { label } | Instruction::JumpWhen { label, .. } | Instruction::JumpUnless { label, .. } => {
            Some(label)
        }
        _ => None,
    }
}
