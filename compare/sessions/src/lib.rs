//! Call lists, of every CONVERT row and every MOVE and STORE row of an integer literal at an edge and then by chance,
//! through frame, journal_length, open, forward, back and run, against the plain machine on the same lent words and
//! 02's claims about a frame's count, a step's entries and runs, and against demand 3's machine and 02's claim about
//! the journal where only our calls wrote.
mod actions;
mod claims;
mod damage;
mod exhaustive;
mod externs;
mod flow;
mod journals;
mod list;
mod literals;
mod player;
mod programs;
mod replies;
mod report;
mod rows;
mod runs;
mod shrink;
mod side;
mod values;

use list::List;
use player::{play, Difference};
use report::{Progress, Report};
use std::time::Instant;
use tables::{options::Usage, random_numbers::Random, Session};

const USAGE: Usage = Usage { program: "sessions", option: "--lists", inputs: "call lists", count: 100_000 };

/// Differences that are shrunk and shown.
const SHOWN: u64 = 3;

/// Runs the program of that library, and ends the process: 0 if nothing differs and nothing is missing, else 1;
/// 2 on bad usage.
pub fn main(library: Box<dyn Session>) {
    let options = USAGE.options();
    let mut differ = 0;
    for (rows, lists) in exhaustive::sets() {
        let report = played(&*library, lists.len() as u64, lists, options.first);
        println!("every {rows}: {}\n", report.counts());
        differ += report.differ;
        if options.first && differ > 0 {
            std::process::exit(1)
        }
    }
    let (start, mut random) = (Instant::now(), Random::new(options.seed));
    let by_chance = (0..options.count).map(|_| actions::list(&mut random));
    let report = played(&*library, options.count, by_chance, options.first);
    report.print(start.elapsed().as_secs_f64());
    let agreed = differ + report.differ == 0 && report.missing().is_empty();
    std::process::exit(if agreed { 0 } else { 1 })
}

/// All of the lists, or up to the first difference.
fn played(library: &dyn Session, of: u64, lists: impl IntoIterator<Item = List>, first: bool) -> Report {
    let (mut report, mut progress) = (Report::default(), Progress::new());
    for list in lists {
        one(library, &mut report, list);
        progress.at(report.lists, of);
        if first && report.differ > 0 {
            break;
        }
    }
    progress.end();
    report
}

fn one(library: &dyn Session, report: &mut Report, mut list: List) {
    let found = play(library, &list, &mut |call| report.seen(&call));
    report.played(&list);
    if let Some(Difference { at, .. }) = found {
        report.differ += 1;
        if report.differ <= SHOWN {
            list.actions.truncate(at + 1);
            show(library, list);
        }
    }
}

/// The smallest list that differs after its last call.
fn show(library: &dyn Session, list: List) {
    let differs = |list: &List| play(library, list, &mut |_| {});
    let list = shrink::shrink(list, |list| differs(list).is_some());
    let what = differs(&list).map_or(String::new(), |difference| difference.what);
    println!("DIFFERS\n{}then {what}\n", list.text());
}
