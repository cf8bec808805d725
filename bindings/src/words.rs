//! Words as enums, and counted parts of a lent list.

/// An enum of words, each with its text. Every word has a case, and every case its word.
macro_rules! coded {
    ($(#[$about:meta])* $name:ident { $($word:literal $case:ident $text:literal,)* }) => {
        $(#[$about])*
        #[derive(Clone, Copy, Debug, PartialEq, Eq)]
        #[non_exhaustive]
        pub enum $name {
            $(
                #[doc = concat!($word, ": ", $text, ".")]
                $case,
            )*
            /// A word that this version has no case for.
            Unknown(u64),
        }

        impl $name {
            /// The case of a word.
            pub const fn of_word(word: u64) -> $name {
                match word {
                    $($word => $name::$case,)*
                    _ => $name::Unknown(word),
                }
            }

            /// The word of a case.
            pub const fn word(self) -> u64 {
                match self {
                    $($name::$case => $word,)*
                    $name::Unknown(word) => word,
                }
            }
        }

        impl core::fmt::Display for $name {
            fn fmt(&self, f: &mut core::fmt::Formatter<'_>) -> core::fmt::Result {
                match self {
                    $($name::$case => f.write_str($text),)*
                    $name::Unknown(word) => write!(f, "unknown word {word}"),
                }
            }
        }
    };
}

/// The first `count` words of a list, or all where it has fewer.
pub fn first(words: &[u64], count: u64) -> &[u64] {
    usize::try_from(count).ok().and_then(|count| words.get(..count)).unwrap_or(words)
}

/// Words as a row. A list of another length, which no caller has, gives zeros.
pub fn row<const WIDTH: usize>(words: &[u64]) -> [u64; WIDTH] {
    words.try_into().unwrap_or([0; WIDTH])
}

#[cfg(test)]
mod tests {
    use super::{first, row};
    use crate::{CallArgumentError, ResolvedCallArgument, Stop, TypeError, UnresolvedCallArgument};
    use std::string::ToString;

    const WORDS: [u64; 8] = [0, 1, 2, 3, 4, 7, 12, u64::MAX];

    /// A row of words of its own for each number.
    fn rows<const WIDTH: usize>() -> impl Iterator<Item = [u64; WIDTH]> {
        let digit = |number: usize, place: usize| WORDS[number >> (3 * place) & 7];
        (0..1 << (3 * WIDTH.min(5))).map(move |number| core::array::from_fn(|place| digit(number, place % 5)))
    }

    #[test]
    fn no_words_panic() {
        rows::<6>().for_each(|words| assert_ne!(TypeError::of_words(words).to_string(), ""));
        rows::<7>().for_each(|words| assert_ne!(CallArgumentError::of_row(&words).to_string(), ""));
        rows::<5>().for_each(|words| assert_ne!(std::format!("{:?}", ResolvedCallArgument::of_row(&words)), ""));
        rows::<2>().for_each(|words| assert_ne!(Stop::of_words(words[0], words[1]).to_string(), ""));
        rows::<3>().for_each(|words| assert_eq!(UnresolvedCallArgument::of_row(words).row(), words));
        assert!(matches!(ResolvedCallArgument::of_row(&[]), ResolvedCallArgument::Unknown(_)));
    }

    #[test]
    fn no_count_panics() {
        assert_eq!(first(&[1, 2], 1), [1]);
        assert_eq!(first(&[1, 2], 3), [1, 2]);
        assert_eq!(first(&[1, 2], u64::MAX), [1, 2]);
        assert_eq!(row::<2>(&[1, 2]), [1, 2]);
        assert_eq!(row::<2>(&[1]), [0, 0]);
    }
}
