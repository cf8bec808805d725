//! Counts, the table and the progress line.
use std::{collections::BTreeMap, io::Write, time::Instant};
use tables::{Answer, Query};

const CALLS: [&str; 5] = ["check", "frame", "resolve", "access", "memory_references"];

pub struct Line {
    pub set: String,
    pub programs: u64,
    pub asked: BTreeMap<&'static str, u64>,
    pub differ: u64,
}

#[derive(Default)]
pub struct Report {
    lines: Vec<Line>,
    /// How often each kind of answer was seen, on both sides.
    answers: BTreeMap<String, u64>,
    /// quil-rs's verdicts, a digit an entry.
    pub chart: String,
}

impl Line {
    pub fn new(set: &str) -> Self {
        Line { set: set.to_string(), programs: 0, asked: BTreeMap::new(), differ: 0 }
    }
}

impl Report {
    pub fn seen(&mut self, line: &mut Line, query: Query, answer: &Answer) {
        *line.asked.entry(query.name()).or_default() += 1;
        for kind in kinds(query, answer) {
            *self.answers.entry(kind).or_default() += 1;
        }
    }

    pub fn add(&mut self, line: Line) {
        self.lines.push(line);
    }

    pub fn differ(&self) -> u64 {
        self.lines.iter().map(|line| line.differ).sum()
    }

    pub fn print(&self) {
        println!(
            "{:<10}{:>10}{:>10}{:>10}{:>10}{:>10}{:>19}{:>9}",
            "set", "programs", CALLS[0], CALLS[1], CALLS[2], CALLS[3], CALLS[4], "differ"
        );
        let mut total = Line::new("all");
        for line in &self.lines {
            print_line(line);
            total.programs += line.programs;
            total.differ += line.differ;
            for (call, count) in &line.asked {
                *total.asked.entry(call).or_default() += count;
            }
        }
        print_line(&total);
        println!("\nanswers that agreed, by kind:");
        for (kind, count) in &self.answers {
            println!("  {kind:<44}{count:>10}");
        }
        if !self.chart.is_empty() {
            print_chart(&self.chart);
        }
        println!("\ndiffer {}", self.differ());
    }
}

fn print_chart(chart: &str) {
    println!("\nthe chart's verdicts, by quil-rs:\n{chart}");
    let counts = ['0', '1', '2', '3', '4'].map(|digit| chart.matches(digit).count().to_string());
    println!("forms by verdict, 0 to 4: {}", counts.join(", "));
}

fn print_line(line: &Line) {
    let count = |call| line.asked.get(call).copied().unwrap_or(0);
    let [a, b, c, d, e] = CALLS.map(count);
    println!("{:<10}{:>10}{a:>10}{b:>10}{c:>10}{d:>10}{e:>19}{:>9}", line.set, line.programs, line.differ);
}

/// What sort of answer it is: the number, a type error's kind, an argument error's case, references or none.
fn kinds(query: Query, answer: &Answer) -> Vec<String> {
    let name = query.name();
    match (query, answer.number) {
        (Query::Check, 5) => vec![format!("{name} 5, error {}", answer.out[0])],
        (Query::Frame { .. }, 5) => vec![format!("{name} 5, error {}", answer.lent[0][0])],
        (Query::Resolve { .. }, 8) => {
            let rows = answer.out[0] as usize;
            let mut kinds = vec![format!("{name} 8")];
            kinds.extend(answer.lent[0].chunks(7).take(rows).map(|row| {
                let whose = ["return's", "parameter's"][row[0] as usize];
                format!("{name} 8, {whose} error {}", row[2])
            }));
            kinds
        }
        (Query::Resolve { .. }, 0) => {
            let rows = answer.out[0] as usize;
            let mut kinds = vec![format!("{name} 0")];
            kinds.extend(answer.lent[0].chunks(5).take(rows).map(|row| format!("{name} 0, row of form {}", row[0])));
            kinds
        }
        (Query::References { .. }, 0) => {
            let found = answer.out.chunks(3).filter(|found| found[0] == 1).count();
            vec![format!("{name} 0, {}", ["none", "one", "more"][found.min(2)])]
        }
        (_, number) => vec![format!("{name} {number}")],
    }
}

/// A line on standard error that is written over, now and then.
pub struct Progress {
    set: String,
    last: Instant,
    shown: bool,
}

impl Progress {
    pub fn new(set: &str) -> Self {
        Progress { set: set.to_string(), last: Instant::now(), shown: false }
    }

    pub fn at(&mut self, programs: u64, of: Option<u64>) {
        if self.last.elapsed().as_millis() < 500 {
            return;
        }
        self.last = Instant::now();
        self.shown = true;
        let of = of.map_or(String::new(), |of| format!(" of {of}"));
        eprint!("\r{}: {programs}{of} programs", self.set);
        let _ = std::io::stderr().flush();
    }

    pub fn end(&mut self) {
        if self.shown {
            eprintln!();
        }
    }
}
