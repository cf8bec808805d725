//! quil-rs's instruction/extern_call.rs, two ways in for the oracle, and the handler's trait.
include!("published_extern_call.rs");

impl ExternSignatureMap {
    /// The map itself. The public construction parses texts and refuses a signature with neither return nor
    /// parameters, which the tables allow.
    pub fn of_signatures(signatures: impl IntoIterator<Item = (String, ExternSignature)>) -> Self {
        ExternSignatureMap(signatures.into_iter().collect())
    }
}

impl Call {
    /// `default_memory_accesses`, which its own crate alone may call.
    pub fn accesses(&self, extern_signatures: &ExternSignatureMap) -> Result<MemoryAccesses, CallResolutionError> {
        self.default_memory_accesses(extern_signatures)
    }
}

/// Stand-in: program/mod.rs names this trait, which instruction/mod.rs hands on from here.
pub trait InstructionHandler {
    fn matching_frames<'p>(
        &self,
        program: &'p crate::Program,
        instruction: &Instruction,
    ) -> Option<crate::program::MatchedFrames<'p>>;
}
