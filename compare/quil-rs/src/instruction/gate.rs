//! Stand-in: gates by their names alone.
use super::DefGateSequence;
use crate::unpublished;
use num_complex::Complex64;

pub type Matrix = ndarray::Array2<Complex64>;

unpublished! { Gate { name: String } }
unpublished! { GateDefinition { name: String, specification: GateSpecification } }
unpublished! { GateModifier, GateType, PauliGate, PauliSum, PauliTerm }

pub(crate) struct GateSignature;

#[derive(Clone, Debug, PartialEq)]
pub enum GateSpecification {
    Matrix(Matrix),
    Sequence(DefGateSequence),
}

#[derive(Clone, Debug, PartialEq, Eq, thiserror::Error)]
#[error("there are no gates here")]
pub struct GateError;

impl Gate {
    pub fn dagger(self) -> Self {
        self
    }

    pub fn to_unitary(&mut self, _: u64) -> Result<Matrix, GateError> {
        Err(GateError)
    }
}
