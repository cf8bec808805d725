//! Stand-in for lexical: numbers as Rust writes them. Only texts depend on it.
use std::{fmt::Display, num::NonZeroI32};

pub mod format {
    pub const STANDARD: u128 = 0;
}

pub struct WriteFloatOptions;

impl WriteFloatOptions {
    pub fn builder() -> Self {
        WriteFloatOptions
    }

    pub fn negative_exponent_break(self, _: Option<NonZeroI32>) -> Self {
        self
    }

    pub fn positive_exponent_break(self, _: Option<NonZeroI32>) -> Self {
        self
    }

    pub fn trim_floats(self, _: bool) -> Self {
        self
    }

    pub fn build(self) -> Result<Self, &'static str> {
        Ok(self)
    }
}

pub fn to_string_with_options<T: Display, const FORMAT: u128>(value: T, _: &WriteFloatOptions) -> String {
    value.to_string()
}
