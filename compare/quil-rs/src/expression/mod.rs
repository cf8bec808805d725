//! quil-rs's expression/mod.rs, and the operators' types, which stand in its unpublished part.
include!("published.rs");

#[derive(Clone, Copy, Debug, PartialEq, Eq, Hash)]
pub enum ExpressionFunction {
    Cis,
    Cosine,
    Exponent,
    Sine,
    SquareRoot,
}

#[derive(Clone, Copy, Debug, PartialEq, Eq, Hash)]
pub enum PrefixOperator {
    Plus,
    Minus,
}

#[derive(Clone, Copy, Debug, PartialEq, Eq, Hash)]
pub enum InfixOperator {
    Caret,
    Plus,
    Minus,
    Slash,
    Star,
}

/// Only texts depend on how an operator is written.
macro_rules! written_as_debug {
    ($($type:ident),*) => {
        $(
            impl fmt::Display for $type {
                fn fmt(&self, f: &mut fmt::Formatter<'_>) -> fmt::Result {
                    write!(f, "{self:?}")
                }
            }
        )*
    };
}

written_as_debug! { ExpressionFunction, PrefixOperator, InfixOperator }
