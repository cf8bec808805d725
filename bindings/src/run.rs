use crate::{Position, Refusal};
use core::fmt;

/// What a [`run`](crate::Session::run) did.
#[derive(Clone, Copy, Debug, PartialEq, Eq)]
#[non_exhaustive]
pub struct Ran {
    /// Steps taken: at most the allowance.
    pub steps: u64,
    /// Why it took no more.
    pub stop: Stop,
    /// Where the session is now.
    pub position: Position,
}

/// Why a run stopped, in the order in which a run looks before each step.
#[derive(Clone, Copy, Debug, PartialEq, Eq)]
#[non_exhaustive]
pub enum Stop {
    /// 0: the allowance is used up.
    Allowance,
    /// 1: the program is at its end.
    End,
    /// 2: the next row is a CALL, which needs a reply.
    Call,
    /// 3: the next step is refused with this. The steps before it are taken.
    Refusal(Refusal),
    /// A word that this version has no case for, and the one after it.
    Unknown(u64, u64),
}

impl Stop {
    pub(crate) const fn of_words(stop: u64, number: u64) -> Stop {
        match stop {
            0 => Stop::Allowance,
            1 => Stop::End,
            2 => Stop::Call,
            3 => Stop::Refusal(Refusal::of_number(number)),
            _ => Stop::Unknown(stop, number),
        }
    }
}

impl fmt::Display for Stop {
    fn fmt(&self, f: &mut fmt::Formatter<'_>) -> fmt::Result {
        match self {
            Stop::Allowance => f.write_str("the allowance is used up"),
            Stop::End => f.write_str("the program is at its end"),
            Stop::Call => f.write_str("the next row is a CALL"),
            Stop::Refusal(refusal) => write!(f, "the next step is {refusal}"),
            Stop::Unknown(stop, number) => write!(f, "unknown words {stop}, {number}"),
        }
    }
}
