//! Stand-in: a program of the comparison defines no frames.
use crate::instruction::{FrameAttributes, FrameIdentifier, Instruction};
use std::collections::HashSet;

pub struct FrameMatchCondition;

pub struct FrameMatchConditions;

pub struct MatchedFrames<'a> {
    pub used: HashSet<&'a FrameIdentifier>,
}

#[derive(Clone, Debug, Default, PartialEq)]
pub struct FrameSet;

impl FrameSet {
    pub fn insert(&mut self, _: FrameIdentifier, _: FrameAttributes) {}

    pub fn merge(&mut self, _: Self) {}

    pub fn intersection(&self, _: &HashSet<&FrameIdentifier>) -> Self {
        FrameSet
    }

    pub fn len(&self) -> usize {
        0
    }

    pub fn to_instructions(&self) -> Vec<Instruction> {
        Vec::new()
    }

    pub fn into_instructions(self) -> Vec<Instruction> {
        Vec::new()
    }
}
