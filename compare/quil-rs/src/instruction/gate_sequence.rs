//! Stand-in: a program of the comparison has no gate sequences.
use super::Gate;

#[derive(Clone, Debug, PartialEq)]
pub struct DefGateSequence {
    pub(crate) gates: Vec<Gate>,
}

#[derive(Clone, Debug, PartialEq, Eq, thiserror::Error)]
#[error("there are no gate sequences here")]
pub struct DefGateSequenceError;

#[derive(Clone, Debug, PartialEq, Eq, thiserror::Error)]
#[error("there are no gate sequences here")]
pub struct DefGateSequenceExpansionError;
