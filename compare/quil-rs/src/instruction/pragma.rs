//! Stand-in: the fields that extern_call.rs and program/mod.rs take apart.
use crate::unpublished;

pub const RESERVED_PRAGMA_EXTERN: &str = "EXTERN";

unpublished! { Include }
unpublished! { Pragma { name: String, arguments: Vec<PragmaArgument>, data: Option<String> } }

#[derive(Clone, Debug, PartialEq, Eq, Hash)]
pub enum PragmaArgument {
    Identifier(String),
    Integer(u64),
}
