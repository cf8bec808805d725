use crate::TypeError;
use core::fmt;

/// The refusals: number, case, cause. 5 stands apart, as it carries the type error.
macro_rules! refusals {
    ($($number:literal $case:ident $cause:literal,)*) => {
        /// Why a call turned its input down. It then wrote nothing, but [`resolve`](crate::resolve) its error rows.
        #[derive(Clone, Copy, Debug, PartialEq, Eq)]
        #[non_exhaustive]
        pub enum Refusal {
            $(
                #[doc = concat!($number, ": ", $cause, ".")]
                $case,
            )*
            /// 5: the program has a type error.
            TypeError(TypeError),
            /// A number that this version has no case for.
            Unknown(u64),
        }

        impl Refusal {
            /// Its number.
            pub const fn number(self) -> u64 {
                match self {
                    $(Refusal::$case => $number,)*
                    Refusal::TypeError(_) => 5,
                    Refusal::Unknown(number) => number,
                }
            }

            /// The cause in plain words.
            pub const fn cause(self) -> &'static str {
                match self {
                    $(Refusal::$case => $cause,)*
                    Refusal::TypeError(_) => "the program has a type error",
                    Refusal::Unknown(_) => "the cause is unknown to this version",
                }
            }

            /// The refusal of a call that has no type error.
            pub(crate) const fn of_number(number: u64) -> Refusal {
                match number {
                    $($number => Refusal::$case,)*
                    _ => Refusal::Unknown(number),
                }
            }
        }
    };
}

refusals! {
    1 TableShape "a table is not whole rows, or has more rows than its limit",
    2 WordNotAllowed "a word is not allowed where it stands, a range lies outside its table or is not exactly one \
        tree, or the chosen row is absent or of another family",
    3 NameTwice "two regions or two externs have one name",
    4 BufferSize "a lent buffer is too short, or the journal is not whole entries or too long",
    6 ExternNotFound "a CALL names an extern that is not declared",
    7 ArgumentCount "a CALL has more or fewer arguments than its extern takes",
    8 ArgumentErrors "arguments of a CALL do not fit their parameters",
    9 OtherInstruction "an instruction is none that the console steps",
    10 TooManyCells "the regions have more than 4,096 cells",
    11 AtEnd "the program is at its end",
    12 NothingToTakeBack "there is no step to take back",
    13 JournalFull "the journal is full: the step's changes and one entry more do not fit",
    14 IndexPastLength "an index is negative, or at or past the length of its region",
    15 ZeroDivisor "an INTEGER is divided by zero",
    16 NegativeShiftCount "a shift count is negative",
    17 UnfitReply "the reply does not fit the CALL, or there is one and the row is no CALL",
    18 NoRule "a cell that is read has no rule: its kind or its word is foreign; or a name is not declared",
    19 ForeignPosition "the position lies past its tables or has more steps than entries, or the journal cannot be read",
    20 UnfitLabels "a label stands on two LABEL rows, or a jump goes to a label that stands on none",
    21 ConditionNotBit "the condition of a jump is not declared, or not BIT",
    22 UnfitConversion "a CONVERT is not between INTEGER and REAL, or one of its names is not declared",
    23 OutsideInteger "a REAL to convert is a NaN, an infinity, or outside -2^63 to 2^63-1 after its fraction is dropped",
    24 UnfitLiteral "an integer literal is outside its target's kind: 0 to 1 for a BIT, 0 to 255 for an OCTET",
}

/// Who can mend what was turned down.
#[derive(Clone, Copy, Debug, PartialEq, Eq)]
#[non_exhaustive]
pub enum Mender {
    /// What made the tables and lent the buffers.
    Loader,
    /// Who wrote the program.
    Author,
    /// Who presses the keys.
    Student,
    /// The values that the program came to.
    RunningProgram,
    /// What made a CALL's reply.
    ExternRoutine,
    /// Whatever wrote memory, journal or position other than the library.
    ForeignWriter,
    /// Of a refusal that this version has no case for.
    Unknown,
}

impl Refusal {
    /// Who can mend it.
    pub const fn mender(self) -> Mender {
        match self.number() {
            1..=4 => Mender::Loader,
            5..=10 => Mender::Author,
            11..=13 => Mender::Student,
            14..=16 => Mender::RunningProgram,
            17 => Mender::ExternRoutine,
            18..=19 => Mender::ForeignWriter,
            20..=22 | 24 => Mender::Author,
            23 => Mender::RunningProgram,
            _ => Mender::Unknown,
        }
    }

    /// The refusal of a call that writes the six words of a type error on 5.
    pub(crate) const fn with_error(number: u64, error: [u64; 6]) -> Refusal {
        match number {
            5 => Refusal::TypeError(TypeError::of_words(error)),
            _ => Refusal::of_number(number),
        }
    }
}

impl fmt::Display for Refusal {
    fn fmt(&self, f: &mut fmt::Formatter<'_>) -> fmt::Result {
        write!(f, "refused {}: {}", self.number(), self.cause())?;
        match self {
            Refusal::TypeError(error) => write!(f, "; {error}"),
            _ => Ok(()),
        }
    }
}

impl fmt::Display for Mender {
    fn fmt(&self, f: &mut fmt::Formatter<'_>) -> fmt::Result {
        f.write_str(match self {
            Mender::Loader => "the loader",
            Mender::Author => "the program's author",
            Mender::Student => "the student",
            Mender::RunningProgram => "the running program",
            Mender::ExternRoutine => "the extern routine",
            Mender::ForeignWriter => "the foreign writer",
            Mender::Unknown => "unknown",
        })
    }
}

#[cfg(test)]
mod tests {
    use super::Refusal;
    use std::format;

    const PAGE: &str = include_str!("../../docs/REFUSALS.md");

    #[test]
    fn each_number_is_its_own() {
        (0..100).for_each(|number| assert_eq!(Refusal::with_error(number, [0; 6]).number(), number));
        (0..100).for_each(|number| assert_eq!(Refusal::of_number(number).number(), number));
    }

    /// Causes and menders in the words of the page of refusals.
    #[test]
    fn words_of_the_page() {
        for number in 1..=24 {
            let refusal = Refusal::with_error(number, [0; 6]);
            let (cause, mender) = (refusal.cause(), refusal.mender());
            let lines = format!("## {number}\n\n- Cause: {cause}.\n- Mended by: {mender}.\n");
            assert!(PAGE.contains(&lines), "{lines}");
        }
    }
}
