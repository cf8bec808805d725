//! Stand-in: a program of the comparison has no gate sequences.
use super::{ExpansionResult, InstructionIndex, SourceMap};
use crate::instruction::{DefGateSequenceExpansionError, GateDefinition, Instruction};
use indexmap::IndexMap;
use std::marker::PhantomData;

#[derive(Clone, Debug, PartialEq)]
pub struct DefGateSequenceExpansion<'a>(PhantomData<&'a ()>);

pub struct ExpandedInstructionsWithSourceMap<'a> {
    pub instructions: Vec<Instruction>,
    pub source_map: SourceMap<InstructionIndex, ExpansionResult<DefGateSequenceExpansion<'a>>>,
}

pub struct ProgramDefGateSequenceExpander<'a, F>(PhantomData<(&'a (), F)>);

impl<'a, F> ProgramDefGateSequenceExpander<'a, F> {
    pub fn new(_: &'a IndexMap<String, GateDefinition>, _: F) -> Self {
        ProgramDefGateSequenceExpander(PhantomData)
    }

    pub fn expand(&self, _: &[Instruction]) -> Result<Vec<Instruction>, DefGateSequenceExpansionError> {
        Err(DefGateSequenceExpansionError)
    }

    pub fn expand_with_source_map(
        &self,
        _: &[Instruction],
    ) -> Result<ExpandedInstructionsWithSourceMap<'a>, DefGateSequenceExpansionError> {
        Err(DefGateSequenceExpansionError)
    }
}
