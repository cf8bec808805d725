//! Stand-in for the record of expansions, of which there are none.
#[derive(Clone, Debug, PartialEq)]
pub enum ExpansionResult<R> {
    Unmodified(super::InstructionIndex),
    Rewritten(R),
}

#[derive(Clone, Debug, PartialEq)]
pub struct SourceMapEntry<S, T> {
    pub(crate) source_location: S,
    pub(crate) target_location: T,
}

#[derive(Clone, Debug, PartialEq)]
pub struct SourceMap<S, T> {
    pub(crate) entries: Vec<SourceMapEntry<S, T>>,
}

impl<S, T> Default for SourceMap<S, T> {
    fn default() -> Self {
        SourceMap { entries: Vec::new() }
    }
}

pub trait SourceMapIndexable {}
