//! Stand-in: type_check.rs passes every instruction of these kinds, and the comparison makes none.
use crate::unpublished;

unpublished! {
    CalibrationDefinition, CalibrationIdentifier, CalibrationSignature, MeasureCalibrationDefinition,
    MeasureCalibrationIdentifier,
}
