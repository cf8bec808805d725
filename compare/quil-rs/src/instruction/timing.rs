//! Stand-in: type_check.rs passes these, and the comparison makes none.
use crate::unpublished;

unpublished! { Delay, Fence }
