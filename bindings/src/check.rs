use crate::{raw, Refusal, Tables};

/// The type check of a program. Refusals in order: 1, 2, 3, 5.
pub fn check(tables: &Tables) -> Result<(), Refusal> {
    let mut error = [0; 6];
    match raw::check(tables, &mut error) {
        0 => Ok(()),
        number => Err(Refusal::with_error(number, error)),
    }
}
