//! What a call refuses with is an `Error`, where there is std.
use crate::{CallArgumentError, CallArgumentResolutionError, FrameRefusal, Refusal, TypeError, Unresolved};
use std::error::Error;

impl Error for Refusal {}

impl Error for TypeError {}

impl Error for FrameRefusal {}

impl Error for Unresolved<'_> {}

impl Error for CallArgumentError {}

impl Error for CallArgumentResolutionError {}
