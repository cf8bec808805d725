//! CONVERT of many words each way, at the edges and by chance, through open, forward and back. What the library gives is
//! held to 02's sentence by whole numbers (`exact`) and to Rust's reading and writing of decimals (`decimal`).
mod ask;
mod decimal;
mod exact;
mod report;
mod words;

use ask::{ask, Direction};
use report::Report;
use tables::{options::Usage, random_numbers::Random, Session};

const USAGE: Usage = Usage { program: "conversions", option: "--words", inputs: "words each way", count: 1_000_000 };

/// Runs the program of that library, and ends the process: 0 if nothing differs and nothing is missing, else 1;
/// 2 on bad usage.
pub fn main(library: Box<dyn Session>) {
    let options = USAGE.options();
    let mut report = Report::default();
    let mut random = Random::new(options.seed);
    for direction in [Direction::ToReal, Direction::ToInteger] {
        let edges = words::edges(direction);
        let by_chance = (0..options.count).map(|_| words::by_chance(&mut random, direction));
        report.drawn(direction, options.count, edges.len());
        for (turn, word) in edges.iter().copied().chain(by_chance).enumerate() {
            one(&*library, &mut report, direction, word, turn);
            if options.first && report.differ > 0 {
                break;
            }
        }
    }
    report.print();
    std::process::exit(if report.differ == 0 && report.missing().is_empty() { 0 } else { 1 })
}

fn one(library: &dyn Session, report: &mut Report, direction: Direction, word: u64, turn: usize) {
    let judged = ask(library, direction, word, turn).and_then(|given| {
        let by_numbers = match direction {
            Direction::ToReal => exact::nearest(word as i64, given),
            Direction::ToInteger => exact::without_fraction(word, given.map(|given| given as i64)),
        }?;
        decimal::agrees(direction, word, given)?;
        Ok(by_numbers)
    });
    match judged {
        Ok(case) => report.seen(case),
        Err(what) => report.differs(direction, word, what),
    }
}
