use crate::{raw, sizes, words::first, CallArgumentError, Refusal, ResolvedCallArgument, Tables};
use core::{fmt, iter::FusedIterator, slice::ChunksExact};

/// Why a CALL has no resolved arguments.
#[derive(Clone, Debug)]
pub enum Unresolved<'r> {
    /// Refusal 8, with what is wrong with each argument that does not fit.
    Errors(CallArgumentErrors<'r>),
    /// Any other refusal.
    Refused(Refusal),
}

/// The arguments of the CALL in that row. `rows` takes 7 words an argument;
/// [`sizes::RESOLVE_WORDS`](crate::sizes::RESOLVE_WORDS) is always enough.
/// Refusals in order: 1, 2, 3, 6, 7, 4, 8.
pub fn resolve<'r>(
    tables: &Tables,
    row: u64,
    rows: &'r mut [u64],
) -> Result<ResolvedCallArguments<'r>, Unresolved<'r>> {
    let mut count = [0];
    match raw::resolve(tables, row, rows, &mut count) {
        0 => Ok(ResolvedCallArguments::of_rows(rows, count[0])),
        8 => Err(Unresolved::Errors(CallArgumentErrors::of_rows(rows, count[0]))),
        number => Err(Unresolved::Refused(Refusal::of_number(number))),
    }
}

/// An iterator over the first rows of a lent list.
macro_rules! rows_of {
    ($(#[$about:meta])* $name:ident: $item:ident, $width:expr) => {
        $(#[$about])*
        #[derive(Clone, Debug)]
        pub struct $name<'r>(ChunksExact<'r, u64>);

        impl<'r> $name<'r> {
            fn of_rows(rows: &'r [u64], count: u64) -> $name<'r> {
                $name(first(rows, count.saturating_mul($width as u64)).chunks_exact($width))
            }
        }

        impl Iterator for $name<'_> {
            type Item = $item;

            fn next(&mut self) -> Option<$item> {
                self.0.next().map($item::of_row)
            }

            fn size_hint(&self) -> (usize, Option<usize>) {
                self.0.size_hint()
            }
        }

        impl ExactSizeIterator for $name<'_> {}

        impl FusedIterator for $name<'_> {}
    };
}

rows_of! {
    /// The resolved arguments, in order, the return's first, read from the lent rows.
    ResolvedCallArguments: ResolvedCallArgument, sizes::RESOLVED_WIDTH
}

rows_of! {
    /// The argument errors, in order, read from the lent rows.
    CallArgumentErrors: CallArgumentError, sizes::ERROR_WIDTH
}

impl Unresolved<'_> {
    /// The refusal alone.
    pub fn refusal(&self) -> Refusal {
        match self {
            Unresolved::Errors(_) => Refusal::ArgumentErrors,
            Unresolved::Refused(refusal) => *refusal,
        }
    }
}

impl From<Unresolved<'_>> for Refusal {
    fn from(unresolved: Unresolved<'_>) -> Refusal {
        unresolved.refusal()
    }
}

impl fmt::Display for Unresolved<'_> {
    fn fmt(&self, f: &mut fmt::Formatter<'_>) -> fmt::Result {
        write!(f, "{}", self.refusal())?;
        match self {
            Unresolved::Errors(errors) => errors.clone().try_for_each(|error| write!(f, "; {error}")),
            Unresolved::Refused(_) => Ok(()),
        }
    }
}
