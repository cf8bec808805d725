//! quil-rs's instruction/declaration.rs, and the three types of its unpublished part: a name with an index,
//! LOAD and STORE. Their fields are those that type_check.rs, memory.rs and extern_call.rs take apart.
include!("published_declaration.rs");

#[derive(Clone, Debug, PartialEq, Eq, Hash)]
pub struct MemoryReference {
    pub name: String,
    pub index: u64,
}

pickleable_new! {
    impl MemoryReference {
        pub fn new(name: String, index: u64);
    }
}

#[derive(Clone, Debug, PartialEq, Eq, Hash)]
pub struct Load {
    pub destination: MemoryReference,
    pub source: String,
    pub offset: MemoryReference,
}

#[derive(Clone, Debug, PartialEq, Hash)]
pub struct Store {
    pub destination: String,
    pub offset: MemoryReference,
    pub source: ArithmeticOperand,
}

/// Only texts depend on how these are written.
macro_rules! written_as_debug {
    ($($type:ident),*) => {
        $(
            impl Quil for $type {
                fn write(
                    &self,
                    f: &mut impl std::fmt::Write,
                    _fall_back_to_debug: bool,
                ) -> crate::quil::ToQuilResult<()> {
                    write!(f, "{self:?}").map_err(Into::into)
                }
            }
        )*
    };
}

written_as_debug! { MemoryReference, Load, Store }
