//! Stand-in for waveforms, and for what the unpublished part of instruction/mod.rs asks of an instruction:
//! the comparison's instructions have no qubits, waveforms or placeholders.
use super::{Instruction, Qubit, QubitPlaceholder, TargetPlaceholder};
use crate::{expression::Expression, unpublished};
use indexmap::IndexMap;

pub type WaveformParameters = IndexMap<String, Expression>;

unpublished! { Waveform }

#[derive(Clone, Debug, PartialEq)]
pub struct WaveformDefinition {
    pub name: String,
    pub definition: Waveform,
}

#[derive(Clone, Debug, PartialEq, Eq)]
pub struct WaveformInvocation {
    pub name: String,
    pub parameters: WaveformParameters,
}

macro_rules! written_as_debug {
    ($($type:ident),*) => {
        $(
            impl crate::quil::Quil for $type {
                fn write(&self, f: &mut impl std::fmt::Write, _: bool) -> crate::quil::ToQuilResult<()> {
                    write!(f, "{self:?}").map_err(Into::into)
                }
            }
        )*
    };
}

written_as_debug! { WaveformDefinition, WaveformInvocation }

impl Instruction {
    pub fn get_qubits(&self) -> Vec<&Qubit> {
        Vec::new()
    }

    pub fn get_waveform_invocation(&self) -> Option<&WaveformInvocation> {
        None
    }

    pub fn resolve_placeholders<T, Q>(&mut self, _: T, _: Q)
    where
        T: Fn(&TargetPlaceholder) -> Option<String>,
        Q: Fn(&QubitPlaceholder) -> Option<u64>,
    {
    }
}
