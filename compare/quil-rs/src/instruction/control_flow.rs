//! Stand-in: targets and jumps as program/mod.rs takes them apart.
use super::MemoryReference;
use crate::unpublished;

unpublished! { Jump { target: Target } }
unpublished! { JumpUnless { target: Target, condition: MemoryReference } }
unpublished! { JumpWhen { target: Target, condition: MemoryReference } }
unpublished! { Label { target: Target } }

#[derive(Clone, Debug, PartialEq, Eq, Hash)]
pub enum Target {
    Fixed(String),
    Placeholder(TargetPlaceholder),
}

#[derive(Clone, Debug, PartialEq, Eq, Hash)]
pub struct TargetPlaceholder(String);

impl TargetPlaceholder {
    pub fn as_inner(&self) -> &str {
        &self.0
    }
}
