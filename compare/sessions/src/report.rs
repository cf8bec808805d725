//! Counts of answers by call, steps by family, and the progress line.
use crate::{
    journals::Journals,
    list::{Action, List},
    literals::Literals,
    player::Call,
    runs::Runs,
};
use plain::ENTRIES;
use std::{collections::BTreeMap, io::Write, time::Instant};

const CALLS: [&str; 6] = ["frame", "journal_length", "open", "forward", "back", "run"];

/// The refusals that each call can give, in the papers' order.
const REFUSALS: [&[u64]; 6] = [
    &[1, 2, 3, 5],
    &[1, 2, 3, 10, 5, 9, 20, 21, 22, 6, 7, 8],
    &[1, 2, 3, 10, 4, 5, 9, 20, 21, 22, 6, 7, 8],
    &[1, 2, 3, 10, 4, 19, 11, 9, 20, 6, 7, 8, 14, 17, 13, 18, 24, 15, 16, 23],
    &[1, 2, 3, 10, 4, 19, 12],
    &[1, 2, 3, 10, 4, 19],
];

/// The last number of a refusal.
const LAST: u64 = 24;

const FAMILIES: [&str; 17] = [
    "arithmetic",
    "comparison",
    "logic",
    "unary",
    "move",
    "exchange",
    "load",
    "store",
    "frame",
    "call",
    "nop",
    "jump",
    "jump-when",
    "jump-unless",
    "label",
    "halt",
    "convert",
];

/// Refusals that depend on the row, and 20.
const SHOWN_BY_FAMILY: [u64; 13] = [9, 20, 6, 7, 8, 17, 18, 14, 24, 15, 16, 23, 13];

#[derive(Default)]
pub struct Report {
    pub lists: u64,
    pub differ: u64,
    answers: BTreeMap<(usize, u64), u64>,
    replayed: BTreeMap<(usize, u64), u64>,
    /// Accepted forwards by family and operator, refused ones by family and number.
    steps: BTreeMap<(u64, u64), u64>,
    refused: BTreeMap<(u64, u64), u64>,
    foreign: u64,
    journals: Journals,
    /// Sums that no journal can have as its entries.
    above: u64,
    /// Frames that failed before their last node, and at it.
    early: u64,
    late: u64,
    runs: Runs,
    literals: Literals,
}

/// A call by its place among them.
fn place(action: &Action) -> Option<usize> {
    match action {
        Action::Frame(_) => Some(0),
        Action::JournalLength => Some(1),
        Action::Open => Some(2),
        Action::Forward(_) => Some(3),
        Action::Back => Some(4),
        Action::Run(_) => Some(5),
        _ => None,
    }
}

impl Report {
    pub fn seen(&mut self, call: &Call) {
        let of = match place(call.action) {
            Some(of) => of,
            None => return,
        };
        self.journals.seen(call);
        self.runs.seen(call);
        self.literals.seen(call);
        *self.answers.entry((of, call.number)).or_default() += 1;
        // Frame and journal_length are none of that machine's calls.
        if call.replayed && !matches!(call.action, Action::Frame(_) | Action::JournalLength) {
            *self.replayed.entry((of, call.number)).or_default() += 1;
        }
        match (call.action, call.number, call.row) {
            (Action::Frame(_), 5, Some(row)) if call.looked < row[3] => self.early += 1,
            (Action::Frame(_), 5, _) => self.late += 1,
            (Action::JournalLength, 0, _) => self.above += u64::from(call.entries > ENTRIES as u64),
            (Action::Forward(_), 0, Some(row)) => *self.steps.entry((row[0], row[1])).or_default() += 1,
            (Action::Forward(_), number, Some(row)) => *self.refused.entry((row[0], number)).or_default() += 1,
            _ => {}
        }
    }

    pub fn played(&mut self, list: &List) {
        self.lists += 1;
        self.foreign += list.actions.iter().filter(|action| !action.is_call()).count() as u64;
        self.journals.played(list);
    }

    /// Numbers that a call can give and did not, and what else a run has to meet.
    pub fn missing(&self) -> Vec<String> {
        let given = |of, number| self.answers.contains_key(&(of, number));
        let mut missing: Vec<String> = (0..CALLS.len())
            .flat_map(|of| [&[0], REFUSALS[of]].concat().into_iter().map(move |number| (of, number)))
            .filter(|&(of, number)| !given(of, number))
            .map(|(of, number)| format!("{} {number}", CALLS[of]))
            .collect();
        let stepped = |family| self.steps.keys().any(|&(of, _)| of == family);
        let unstepped = (0..).zip(FAMILIES).filter(|&(family, _)| !stepped(family));
        missing.extend(unstepped.map(|(_, name)| format!("forward over {name}")));
        missing.extend(self.runs.missing());
        missing.extend(self.literals.missing());
        if self.early == 0 || self.late == 0 {
            missing.push("frames that fail before their last node, and at it".to_string());
        }
        if self.above == 0 {
            missing.push(format!("a sum above {ENTRIES}"));
        }
        if !self.journals.tight() {
            missing.push("13 with one entry less than the sum".to_string());
        }
        missing
    }

    /// Lists and calls, and how many lists differ.
    pub fn counts(&self) -> String {
        format!("lists {}, calls {}, differ {}", self.lists, self.answers.values().sum::<u64>(), self.differ)
    }

    pub fn print(&self, seconds: f64) {
        self.print_answers();
        self.print_steps();
        let sum = |table: &BTreeMap<_, u64>| table.values().sum::<u64>();
        println!(
            "\nlists {}, calls {}, of these with demand 3's machine {}, foreign writes {}, {:.0} lists a second",
            self.lists,
            sum(&self.answers),
            sum(&self.replayed),
            self.foreign,
            self.lists as f64 / seconds
        );
        println!("frames that fail before their last node: {}, at it: {}", self.early, self.late);
        println!("{}; sums above {ENTRIES}: {}", self.journals.text(), self.above);
        println!("{}\n{}", self.runs.text(), self.literals.text());
        let missing = self.missing();
        println!("not reached: {}", if missing.is_empty() { "none".to_string() } else { missing.join(", ") });
        println!("differ {}", self.differ);
    }

    fn print_answers(&self) {
        println!("answers that agreed, in brackets those also compared with demand 3's machine:");
        let line = |columns: [String; 6]| columns.iter().map(|column| format!("{column:>22}")).collect::<String>();
        println!("{:>8}{}", "number", line(CALLS.map(String::from)));
        for number in 0..=LAST {
            let column = |of: usize| {
                let count = |table: &BTreeMap<_, u64>| table.get(&(of, number)).copied().unwrap_or(0);
                let can = number == 0 || REFUSALS[of].contains(&number);
                match (count(&self.answers), count(&self.replayed)) {
                    (0, _) if !can => String::new(),
                    (all, 0) => format!("{all:<11}"),
                    (all, replayed) => format!("{all} {:<10}", format!("({replayed})")),
                }
            };
            println!("{}", format!("{number:>8}{}", line([0, 1, 2, 3, 4, 5].map(column))).trim_end());
        }
    }

    fn print_steps(&self) {
        print!("\nforward by family{:>13}", "done");
        SHOWN_BY_FAMILY.iter().for_each(|number| print!("{number:>8}"));
        println!("  done by operator");
        for (family, name) in (0..).zip(FAMILIES) {
            let steps: Vec<u64> =
                self.steps.iter().filter(|((of, _), _)| *of == family).map(|(_, count)| *count).collect();
            print!("  {name:<15}{:>13}", steps.iter().sum::<u64>());
            for &number in &SHOWN_BY_FAMILY {
                print!("{:>8}", self.refused.get(&(family, number)).copied().unwrap_or(0));
            }
            let steps: Vec<String> = steps.iter().map(|count| count.to_string()).collect();
            println!("  {}", steps.join(" "));
        }
    }
}

/// A line on standard error that is written over, now and then.
pub struct Progress {
    last: Instant,
    shown: bool,
}

impl Progress {
    pub fn new() -> Self {
        Progress { last: Instant::now(), shown: false }
    }

    pub fn at(&mut self, lists: u64, of: u64) {
        if self.last.elapsed().as_millis() < 500 {
            return;
        }
        self.last = Instant::now();
        self.shown = true;
        eprint!("\rsessions: {lists} of {of} lists");
        let _ = std::io::stderr().flush();
    }

    pub fn end(&mut self) {
        if self.shown {
            eprintln!();
        }
    }
}
