//! Counts of conversions by their case.
use crate::{ask::Direction, exact::Case};
use std::collections::BTreeMap;

/// Differences that are shown.
const SHOWN: u64 = 3;

/// Every case of each direction, INTEGER to REAL first.
const CASES: [&[(Case, &str)]; 2] = [
    &[
        (Case::Exact, "exact"),
        (Case::Down, "rounded to 0"),
        (Case::Up, "from 0"),
        (Case::TieDown, "ties to 0"),
        (Case::TieUp, "ties from 0"),
    ],
    &[
        (Case::WholeNumber, "whole"),
        (Case::FractionDropped, "a fraction dropped"),
        (Case::OnlyFraction, "nothing but a fraction"),
        (Case::Nan, "23 of a NaN"),
        (Case::Infinite, "of an infinity"),
        (Case::Outside, "outside"),
    ],
];

#[derive(Default)]
pub struct Report {
    pub differ: u64,
    seen: BTreeMap<Case, u64>,
    drawn: Vec<String>,
}

impl Report {
    pub fn drawn(&mut self, direction: Direction, by_chance: u64, edges: usize) {
        self.drawn.push(format!("{}: {by_chance} by chance, {edges} edges", direction.text()));
    }

    pub fn seen(&mut self, case: Case) {
        *self.seen.entry(case).or_default() += 1;
    }

    pub fn differs(&mut self, direction: Direction, word: u64, what: String) {
        self.differ += 1;
        if self.differ <= SHOWN {
            println!("DIFFERS\n{} of the word {word:016x}: {what}\n", direction.text());
        }
    }

    /// Cases that no word was.
    pub fn missing(&self) -> Vec<&'static str> {
        let cases = CASES.iter().copied().flatten();
        cases.filter(|(case, _)| !self.seen.contains_key(case)).map(|(_, name)| *name).collect()
    }

    pub fn print(&self) {
        for (drawn, cases) in self.drawn.iter().zip(CASES) {
            let count = |case| self.seen.get(case).copied().unwrap_or(0);
            let cases: Vec<String> = cases.iter().map(|(case, name)| format!("{name} {}", count(case))).collect();
            println!("{drawn}; {}", cases.join(", "));
        }
        let missing = self.missing();
        println!("not reached: {}", if missing.is_empty() { "none".to_string() } else { missing.join(", ") });
        println!("differ {}", self.differ);
    }
}
