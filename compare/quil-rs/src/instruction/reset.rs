//! Stand-in: type_check.rs passes it, and the comparison makes none.
use crate::unpublished;

unpublished! { Reset }
