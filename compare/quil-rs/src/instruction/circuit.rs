//! Stand-in: a circuit's definition by its name alone.
use crate::unpublished;

unpublished! { CircuitDefinition { name: String } }
