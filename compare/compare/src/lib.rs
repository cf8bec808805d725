//! The comparison of a console with quil-rs: every small program, and many by chance; and of the chart that the library
//! carries.
mod ask;
mod carried;
mod chart;
mod differ;
mod exhaustive;
mod lent;
mod options;
mod program;
mod random;
mod report;
mod shrink;
mod vectors;
mod walk;

use carried::{Entry, ENTRIES};
use chart::Said;
use differ::{difference, Difference};
use options::Options;
use program::Program;
use random_numbers::Random;
use report::{Line, Progress, Report};
use tables::{quil_text, random_numbers, words_text, Console, Query};

/// quil-rs goes down a tree by calling itself, so a tree of 2,048 levels wants room.
const STACK: usize = 1 << 30;

/// Differences that are shrunk and shown, for each set.
const SHOWN: u64 = 3;

/// Runs the program of that console, and ends the process: 0 if nothing differs, else 1; 2 on bad usage, or without the
/// chart's files.
pub fn main(console: Box<dyn Console + Send>) {
    let (options, carried) = asked_for().unwrap_or_else(|message| {
        eprintln!("{message}");
        std::process::exit(2)
    });
    let run = move || {
        if options.vectors {
            return vectors::write();
        }
        let mut comparison = Comparison { console, options, carried, report: Report::default() };
        comparison.all()
    };
    let thread = std::thread::Builder::new().stack_size(STACK).spawn(run);
    let agreed = thread.expect("a thread").join().unwrap_or(false);
    std::process::exit(if agreed { 0 } else { 1 })
}

fn asked_for() -> Result<(Options, Vec<Entry>), String> {
    let options = Options::read(std::env::args().skip(1))?;
    let carried = carried::read(&options.crates)?;
    Ok((options, carried))
}

struct Comparison {
    console: Box<dyn Console + Send>,
    options: Options,
    carried: Vec<Entry>,
    report: Report,
}

impl Comparison {
    fn all(&mut self) -> bool {
        self.exhaustive("rows", exhaustive::rows::each);
        self.exhaustive("trees", exhaustive::trees::each);
        self.exhaustive("calls", exhaustive::calls::each);
        self.chart();
        self.random("random", self.options.random, |random, _| random::small::program(random));
        self.random("limits", self.options.limits, random::limits::program);
        self.report.print();
        self.report.differ() == 0
    }

    fn wanted(&self, set: &str) -> bool {
        let done = self.options.first && self.report.differ() > 0;
        !done && self.options.only.as_deref().map_or(true, |only| only == set)
    }

    fn exhaustive(&mut self, set: &str, each: fn(&mut dyn FnMut(Program))) {
        if !self.wanted(set) {
            return;
        }
        let (mut line, mut progress) = (Line::new(set), Progress::new(set));
        each(&mut |program| self.one(&mut line, &mut progress, None, program));
        progress.end();
        self.report.add(line);
    }

    /// The chart's forms in order, each by every row that shares it. One that differs is told by the first such row.
    fn chart(&mut self) {
        if !self.wanted("chart") {
            return;
        }
        let (forms, mut line) = (chart::forms(), Line::new("chart"));
        assert_eq!(forms.len(), ENTRIES);
        for ((form, shapes), &entry) in forms.iter().zip(&self.carried) {
            let said: Vec<Said> = shapes.iter().map(|shape| Said::of(&*self.console, shape, entry)).collect();
            line.programs += said.len() as u64;
            self.report.chart.push(said[0].digit());
            let agreed = said.iter().filter_map(Said::agreed);
            agreed.for_each(|answer| self.report.seen(&mut line, Query::Check, answer));
            if let Some(differs) = said.iter().find(|said| said.agreed().is_none()) {
                line.differ += 1;
                if line.differ == 1 || !self.options.first {
                    println!("DIFFERS\n{form}: {differs}\n");
                }
            }
        }
        self.report.add(line);
    }

    fn random(&mut self, set: &str, count: u64, make: fn(&mut Random, u64) -> Program) {
        if !self.wanted(set) {
            return;
        }
        let (mut line, mut progress) = (Line::new(set), Progress::new(set));
        let mut random = Random::new(self.options.seed);
        for turn in 0..count {
            let program = make(&mut random, turn);
            self.one(&mut line, &mut progress, Some(count), program);
        }
        progress.end();
        self.report.add(line);
    }

    fn one(&mut self, line: &mut Line, progress: &mut Progress, of: Option<u64>, program: Program) {
        if self.options.first && line.differ > 0 {
            return;
        }
        let room = (line.programs % 3) as usize;
        let report = &mut self.report;
        let found = difference(&*self.console, &program, room, |query, answer| {
            report.seen(line, query, answer);
        });
        line.programs += 1;
        progress.at(line.programs, of);
        if found.is_some() {
            line.differ += 1;
            if line.differ <= SHOWN {
                self.show(program, room);
            }
        }
    }

    /// The smallest program that differs, as words and as text, with both answers.
    fn show(&self, program: Program, room: usize) {
        let differs = |program: &Program| difference(&*self.console, program, room, |_, _| {});
        let program = shrink::shrink(program, |program| differs(program).is_some());
        let tables = program.tables();
        println!("DIFFERS\n{}{}", words_text(&tables), quil_text(&tables));
        if let Some(Difference { query, expected, got }) = differs(&program) {
            println!("asked    {query:?}\nexpected {expected:x?}\nlibrary  {got:x?}\n");
        }
    }
}
