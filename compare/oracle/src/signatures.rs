//! The extern table as quil-rs's map of signatures.
use crate::names::{name, scalar, vector};
use quil_rs::instruction::{ExternParameter, ExternParameterType, ExternSignature, ExternSignatureMap};
use tables::{Tables, NO_RETURN, PARAMETER};

pub fn signatures(tables: &Tables) -> Result<ExternSignatureMap, String> {
    let signatures = tables
        .externs()
        .map(|e| {
            let returned = if e[1] == NO_RETURN { None } else { Some(scalar(e[1])) };
            let parameters =
                tables.parameters_of(e[2], e[3]).chunks(PARAMETER).map(parameter).collect::<Result<_, String>>()?;
            Ok((name(e[0]), ExternSignature::new(returned, parameters)))
        })
        .collect::<Result<Vec<_>, String>>()?;
    Ok(ExternSignatureMap::of_signatures(signatures))
}

fn parameter(p: &[u64]) -> Result<ExternParameter, String> {
    let data_type = match p[2] {
        0 => ExternParameterType::Scalar(scalar(p[3])),
        1 => ExternParameterType::FixedLengthVector(vector(p[3], p[4])),
        _ => ExternParameterType::VariableLengthVector(scalar(p[3])),
    };
    ExternParameter::try_new(name(p[0]), p[1] != 0, data_type).map_err(|error| error.to_string())
}
