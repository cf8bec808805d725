//! Stand-in: a program of the comparison has no calibrations.
#[derive(Clone, Debug, Default, PartialEq)]
pub struct CalibrationSet;
