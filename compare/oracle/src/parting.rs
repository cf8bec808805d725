//! Where the laboratory expects another answer than quil-rs's, which itself stays as it is (docs/DIFFERENCES.md).
use quil_rs::{
    instruction::{ArithmeticOperand, Instruction, Store},
    program::type_check::TypeError,
    Program,
};

const OFFSET: u64 = 2;
const SOURCE: u64 = 3;

/// The spot to expect where quil-rs gave this one. 02, P1: "An undeclared source is now error 1 at spot 3", of STORE;
/// quil-rs names the offset there. "The Rust's answer in all else".
pub fn spot(program: &Program, error: &TypeError, spot: u64) -> u64 {
    match error {
        TypeError::UndefinedMemoryReference { instruction: Instruction::Store(store), .. }
            if spot == OFFSET && source_alone_undeclared(program, store) =>
        {
            SOURCE
        }
        _ => spot,
    }
}

fn source_alone_undeclared(program: &Program, store: &Store) -> bool {
    let declared = |name: &String| program.memory_regions.contains_key(name);
    let ArithmeticOperand::MemoryReference(source) = &store.source else {
        return false;
    };
    declared(&store.destination) && declared(&store.offset.name) && !declared(&source.name)
}
