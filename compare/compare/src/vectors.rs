//! The fixed list of the oracle's answers that crates/cases_calls replays (its cases/quil_rs.py asks it): a sample of every set, a question a line.
//!
//! A line is words in hexadecimal. A list is its length, then its words; of a table each row has its first LISTED words.
//!   call (1 check, 2 resolve, 3 access, 4 memory_references), the six tables as lists, then
//!   1: number, the error's six words or six zeros
//!   2: row, room, number, count, the written words as a list
//!   3: row, two rooms, number, two counts, each list's written words as a list
//!   4: first node, node count, how many calls, the three words that each found
//! Lent words past the written ones must keep what they held.
use crate::{
    exhaustive,
    program::{Program, Row},
    random,
    random_numbers::Random,
};
use std::io::Write;
use tables::{Answer, Query, Tables};

/// No question lends a longer list.
const MOST: usize = 256;

/// Larger programs are left to the comparison itself, so that the list stays small.
const LARGEST: usize = 80;
const SEED: u64 = 4;

/// Words of a row in the list, of each table: those that quil-rs has. A table may have more to a row, which are 0 there.
const LISTED: [usize; 6] = [3, 4, 5, 3, 3, 9];

pub fn write() -> bool {
    let mut list = List { text: header(), ..List::default() };
    sample(&mut list, exhaustive::rows::each, 121);
    sample(&mut list, exhaustive::trees::each, 331);
    sample(&mut list, exhaustive::calls::each, 487);
    let mut random = Random::new(SEED);
    for _ in 0..600 {
        list.add(&random::small::program(&mut random));
    }
    eprintln!("{} questions", list.questions);
    list.failed.is_none() && std::io::stdout().write_all(list.text.as_bytes()).is_ok()
}

fn header() -> String {
    "# quil-rs's answers at 5a4668c218, compare/oracle/src/parting.rs apart, as compare/compare/src/vectors.rs lays them out.\n\
     # Made by: compare/run --vectors > crates/cases_calls/quil-rs.answers\n"
        .to_string()
}

/// One program of every so many.
fn sample(list: &mut List, each: fn(&mut dyn FnMut(Program)), every: usize) {
    let mut turn = 0;
    each(&mut |program| {
        if turn % every == 0 {
            list.add(&program);
        }
        turn += 1;
    });
}

#[derive(Default)]
struct List {
    text: String,
    questions: usize,
    failed: Option<String>,
}

impl List {
    fn add(&mut self, program: &Program) {
        let tables = program.tables();
        let fits = tables.in_order().iter().map(|(_, _, words)| words.len()).sum::<usize>() <= LARGEST;
        // A program of one CALL always passes the check.
        let one_call = matches!(&program.rows[..], [Row::Call { .. }]);
        for query in program.queries(&tables, self.questions % 3) {
            let Some(call) = call(query) else {
                continue;
            };
            if !fits || needed(query) > MOST || (one_call && query == Query::Check) {
                continue;
            }
            match oracle::answer(&tables, query) {
                Ok(answer) => self.line(call, &tables, query, &answer),
                Err(message) => {
                    eprintln!("{message}");
                    self.failed = Some(message);
                }
            }
        }
    }

    fn line(&mut self, call: u64, tables: &Tables, query: Query, answer: &Answer) {
        let mut words = vec![call];
        for ((_, width, table), listed) in tables.in_order().into_iter().zip(LISTED) {
            let rows: Vec<u64> = table.chunks(width).flat_map(|row| &row[..listed]).copied().collect();
            push_list(&mut words, &rows);
        }
        match query {
            Query::Check => {
                words.push(answer.number);
                words.extend(if answer.number == 5 { answer.out.clone() } else { vec![0; 6] });
            }
            Query::Frame { .. } => unreachable!("no question of the list"),
            Query::Resolve { row, room } => {
                let (count, width) = match answer.number {
                    0 => (answer.out[0], 5),
                    8 => (answer.out[0], 7),
                    _ => (0, 0),
                };
                words.extend([row, room as u64, answer.number, count]);
                push_list(&mut words, &answer.lent[0][..count as usize * width]);
            }
            Query::Access { row, room } => {
                let counts = if answer.number == 0 { [answer.out[0], answer.out[1]] } else { [0, 0] };
                words.extend([row, room[0] as u64, room[1] as u64, answer.number]);
                words.extend(counts);
                push_list(&mut words, &answer.lent[0][..counts[0] as usize]);
                push_list(&mut words, &answer.lent[1][..counts[1] as usize]);
            }
            Query::References { first, count } => {
                words.extend([first, count, answer.out.len() as u64 / 3]);
                words.extend(&answer.out);
            }
        }
        let words: Vec<String> = words.iter().map(|word| format!("{word:x}")).collect();
        self.text.push_str(&words.join(" "));
        self.text.push('\n');
        self.questions += 1;
    }
}

/// Its number in the list, which has no question for frame: quil-rs does not count nodes.
fn call(query: Query) -> Option<u64> {
    match query {
        Query::Check => Some(1),
        Query::Frame { .. } => None,
        Query::Resolve { .. } => Some(2),
        Query::Access { .. } => Some(3),
        Query::References { .. } => Some(4),
    }
}

/// The longest list that is lent.
fn needed(query: Query) -> usize {
    match query {
        Query::Resolve { room, .. } => room,
        Query::Access { room, .. } => room[0].max(room[1]),
        _ => 0,
    }
}

fn push_list(words: &mut Vec<u64>, list: &[u64]) {
    words.push(list.len() as u64);
    words.extend(list);
}
