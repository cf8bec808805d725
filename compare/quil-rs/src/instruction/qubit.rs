//! Stand-in: the cases that program/mod.rs tells apart.
use crate::unpublished;

unpublished! { QubitPlaceholder }

#[derive(Clone, Debug, PartialEq, Eq, Hash)]
pub enum Qubit {
    Fixed(u64),
    Placeholder(QubitPlaceholder),
    Variable(String),
}

impl crate::quil::Quil for Qubit {
    fn write(&self, f: &mut impl std::fmt::Write, _: bool) -> crate::quil::ToQuilResult<()> {
        write!(f, "{self:?}").map_err(Into::into)
    }
}
