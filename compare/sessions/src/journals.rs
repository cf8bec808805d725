//! Lists by our calls alone whose journal has just the entries that 02 counts for their program, which has no jump, or
//! one less.
use crate::{
    list::{Action, List},
    player::Call,
};

#[derive(Default)]
pub struct Journals {
    exact: Lists,
    less: Lists,
    /// Of the list that is played: its entries above the sum, and whether it met 13.
    spare: Option<i64>,
    full: bool,
}

/// So many, and how many of them met 13.
#[derive(Default)]
struct Lists {
    played: u64,
    full: u64,
}

impl Journals {
    pub fn seen(&mut self, call: &Call) {
        self.spare = call.spare;
        self.full |= call.spare.is_some() && (call.number == 13 || call.stopped_by() == Some(13));
    }

    pub fn played(&mut self, list: &List) {
        let (spare, full) = (self.spare.take(), std::mem::take(&mut self.full));
        let lists = match spare {
            Some(0) => &mut self.exact,
            Some(-1) => &mut self.less,
            _ => return,
        };
        if list.actions.iter().all(Action::is_call) {
            lists.played += 1;
            lists.full += u64::from(full);
        }
    }

    /// Whether one entry less was ever too few: if not, the sum need not be the least that is enough.
    pub fn tight(&self) -> bool {
        self.less.full > 0
    }

    pub fn text(&self) -> String {
        format!("journal of the sum: {}; one entry less: {}", self.exact.text(), self.less.text())
    }
}

impl Lists {
    fn text(&self) -> String {
        let full = if self.full == 0 { "none".to_string() } else { self.full.to_string() };
        format!("{} lists, 13 in {full}", self.played)
    }
}
