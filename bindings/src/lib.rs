//! The console's calls for Rust: a program is six tables of 64-bit words, a [`Session`] steps it forward and back.
//! Thin: every rule is in the proved library behind `console.h`; here words become enums and nothing is decided.
//!
//! - Rows of the tables: [`Region`], [`Extern`], [`Parameter`], [`Node`], [`UnresolvedCallArgument`], [`Instruction`],
//!   each with `row()`, its words; [`Tables`] lends them, `Program` (feature `std`) collects them.
//! - Calls on the tables: [`check`], [`frame`], [`resolve`], [`access`], [`journal_length`]; on an expression:
//!   [`Walk::memory_references`].
//! - A session: [`Session::open`], [`forward`](Session::forward), [`back`](Session::back), [`run`](Session::run),
//!   [`reset`](Session::reset).
//! - [`raw`] is the C interface as it is.
//!
//! An enum that is read from the library's words has a last case `Unknown`, which keeps a word (or a row) that this
//! version has no case for; nothing panics on one. Such an enum is `#[non_exhaustive]`.
//!
//! The feature `std`, on by default, adds `Program`, and `Error` to what calls refuse with; without it the crate needs
//! `core` alone. Nothing but `Program` allocates.
//!
//! `docs/USING.md` of the repository has the buffers to lend and what is promised, `docs/REFUSALS.md` the orders of
//! refusals;
//! `examples/step.rs` is a whole session.
#![no_std]
#![deny(missing_docs, unsafe_code)]

#[cfg(any(test, feature = "std"))]
extern crate std;

#[macro_use]
mod words;

mod access;
mod argument;
mod argument_error;
mod check;
#[cfg(feature = "std")]
mod errors;
mod foreign;
mod frame;
mod instruction;
mod journal_length;
mod kind;
mod operator;
#[cfg(feature = "std")]
mod program;
#[allow(unsafe_code)]
pub mod raw;
mod refusal;
mod resolve;
mod rows;
mod run;
mod session;
pub mod sizes;
mod tables;
mod type_error;
mod walk;

pub use access::{access, AccessSets};
pub use argument::{ResolvedCallArgument, UnresolvedCallArgument, Vector};
pub use argument_error::{CallArgumentError, CallArgumentResolutionError};
pub use check::check;
pub use frame::{frame, FrameRefusal};
pub use instruction::{Instruction, Source};
pub use journal_length::journal_length;
pub use kind::Kind;
pub use operator::{ArithmeticOperator, BinaryOperator, ComparisonOperator, FrameOperator, UnaryOperator};
#[cfg(feature = "std")]
pub use program::Program;
pub use raw::flattened;
pub use refusal::{Mender, Refusal};
pub use resolve::{resolve, CallArgumentErrors, ResolvedCallArguments, Unresolved};
pub use rows::{Extern, Node, Parameter, Region, Shape};
pub use run::{Ran, Stop};
pub use session::{Cell, Position, Reply, Session};
pub use tables::Tables;
pub use type_error::{Code, Spot, TypeError, TypeErrorKind};
pub use walk::{MemoryReference, MemoryReferences, Walk};
