//! Stand-in: a program of the comparison has no calibrations.
use crate::{
    instruction::{CalibrationDefinition, Instruction, MeasureCalibrationDefinition},
    program::{InstructionIndex, ProgramError},
};
use std::ops::Range;

#[derive(Clone, Debug, Default, PartialEq)]
pub struct Calibrations;

#[derive(Clone, Debug, PartialEq)]
pub struct CalibrationSource;

#[derive(Clone, Debug, PartialEq)]
pub struct CalibrationExpansion {
    pub(crate) range: Range<InstructionIndex>,
}

pub struct CalibrationExpansionOutput {
    pub new_instructions: Vec<Instruction>,
    pub detail: CalibrationExpansion,
}

impl CalibrationExpansion {
    pub(crate) fn remove_target_index(&mut self, _: InstructionIndex) {}
}

impl Calibrations {
    pub fn insert_calibration(&mut self, _: CalibrationDefinition) {}

    pub fn insert_measurement_calibration(&mut self, _: MeasureCalibrationDefinition) {}

    pub fn extend(&mut self, _: Self) {}

    pub fn to_instructions(&self) -> Vec<Instruction> {
        Vec::new()
    }

    pub fn expand_with_detail(
        &self,
        _: &Instruction,
        _: &[Instruction],
    ) -> Result<Option<CalibrationExpansionOutput>, ProgramError> {
        Ok(None)
    }
}
