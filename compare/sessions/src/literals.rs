//! Integer literals that MOVE and STORE put into a BIT or an OCTET: those that it takes, and those that are 24.
use crate::{list::Action, player::Call};
use plain::{BIT, OCTET};
use std::collections::BTreeMap;

/// By family and kind.
const INTO: [([u64; 2], &str); 4] = [
    ([4, BIT], "MOVE into BIT"),
    ([4, OCTET], "MOVE into OCTET"),
    ([7, BIT], "STORE into BIT"),
    ([7, OCTET], "STORE into OCTET"),
];

#[derive(Default)]
pub struct Literals {
    taken: BTreeMap<[u64; 2], u64>,
    unfit: BTreeMap<[u64; 2], u64>,
}

impl Literals {
    /// Counted where only our calls wrote: a cell has its declared kind there.
    pub fn seen(&mut self, call: &Call) {
        let (Action::Forward(_), Some([family, _, name, _, _, _, 0, ..]), true) =
            (call.action, call.row, call.replayed)
        else {
            return;
        };
        let counts = match call.number {
            0 => &mut self.taken,
            24 => &mut self.unfit,
            _ => return,
        };
        if let Some(region) = call.tables.regions().find(|region| region[0] == *name) {
            *counts.entry([*family, region[1]]).or_default() += 1;
        }
    }

    /// Where no literal was taken, or none was 24.
    pub fn missing(&self) -> Vec<String> {
        let missed = INTO.iter().filter(|(into, _)| !(self.taken.contains_key(into) && self.unfit.contains_key(into)));
        missed.map(|(_, name)| format!("{name} of a literal that fits, and of one that does not")).collect()
    }

    pub fn text(&self) -> String {
        let count = |counts: &BTreeMap<_, u64>, into| counts.get(&into).copied().unwrap_or(0);
        let counts =
            INTO.map(|(into, name)| format!("{name} {} and {}", count(&self.taken, into), count(&self.unfit, into)));
        format!("integer literals that fit, and that are 24: {}", counts.join(", "))
    }
}
