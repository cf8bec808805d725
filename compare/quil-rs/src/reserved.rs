//! Stand-in: no word is reserved here. The comparison's names are never Quil's own words.
use std::str::FromStr;

#[derive(Clone, Debug, PartialEq, Eq)]
pub struct ReservedToken;

impl FromStr for ReservedToken {
    type Err = ();

    fn from_str(_: &str) -> Result<Self, ()> {
        Err(())
    }
}

impl std::fmt::Display for ReservedToken {
    fn fmt(&self, f: &mut std::fmt::Formatter<'_>) -> std::fmt::Result {
        write!(f, "reserved")
    }
}
