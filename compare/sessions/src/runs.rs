//! Runs by what stopped them, and conditional jumps by whether they were taken.
use crate::{list::Action, player::Call};
use std::collections::BTreeMap;

/// Each stop, and the refusals that can be one: forward's, of rows that are no CALL with an empty reply.
const STOPS: [([u64; 2], &str); 12] = [
    ([0, 0], "allowance"),
    ([1, 0], "end"),
    ([2, 0], "before a CALL"),
    ([3, 9], "refusal 9"),
    ([3, 20], "refusal 20"),
    ([3, 18], "refusal 18"),
    ([3, 14], "refusal 14"),
    ([3, 24], "refusal 24"),
    ([3, 15], "refusal 15"),
    ([3, 16], "refusal 16"),
    ([3, 23], "refusal 23"),
    ([3, 13], "refusal 13"),
];

const JUMPS: [(u64, bool, &str); 4] = [
    (12, true, "JUMP-WHEN taken"),
    (12, false, "JUMP-WHEN not taken"),
    (13, true, "JUMP-UNLESS taken"),
    (13, false, "JUMP-UNLESS not taken"),
];

#[derive(Default)]
pub struct Runs {
    /// By stop and number.
    stops: BTreeMap<[u64; 2], u64>,
    steps: u64,
    longest: u64,
    /// By family, and whether the next row was another than the one after.
    jumps: BTreeMap<(u64, bool), u64>,
}

impl Runs {
    pub fn seen(&mut self, call: &Call) {
        match (call.action, call.number, call.row) {
            (Action::Run(_), 0, _) => {
                let [steps, stop, number] = call.ran;
                *self.stops.entry([stop, number]).or_default() += 1;
                self.steps += steps;
                self.longest = self.longest.max(steps);
            }
            (Action::Forward(_), 0, Some(row)) => {
                *self.jumps.entry((row[0], call.to[0] != call.from[0] + 1)).or_default() += 1;
            }
            _ => {}
        }
    }

    /// What no run stopped at, and what no conditional jump did.
    pub fn missing(&self) -> Vec<String> {
        let stops = STOPS.iter().filter(|(stop, _)| !self.stops.contains_key(stop));
        let jumps = JUMPS.iter().filter(|(family, taken, _)| !self.jumps.contains_key(&(*family, *taken)));
        let stops = stops.map(|(_, name)| format!("run stopped: {name}"));
        stops.chain(jumps.map(|(.., name)| name.to_string())).collect()
    }

    pub fn text(&self) -> String {
        let stops = STOPS.map(|(stop, name)| format!("{name} {}", self.stops.get(&stop).copied().unwrap_or(0)));
        let jumps = JUMPS
            .map(|(family, taken, name)| format!("{name} {}", self.jumps.get(&(family, taken)).copied().unwrap_or(0)));
        format!(
            "runs by stop: {}; steps {}, at most {} in a run\nforward over {}",
            stops.join(", "),
            self.steps,
            self.longest,
            jumps.join(", ")
        )
    }
}
