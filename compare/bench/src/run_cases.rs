//! Jumps and labels at the limits, and runs, beside one forward: a key press there beside one on a classical row, and a
//! run beside a single step on the same tables.
use crate::{
    case::{hidden, Against, Call, Case},
    inputs::{self, Labels},
    key_cases::{buffers, forward, presses, Buffers},
};
use library::lent;
use mugwortlatch::{raw, sizes};
use tables::Tables;

/// As many steps as the longest journal has entries: each of these rows uses one.
const STEPS: u64 = sizes::ENTRY_LIMIT as u64;

/// The most that a key press may cost, one on a classical row being 1.
const PRESS: f64 = 2.0;

/// The most that a run of `STEPS` may cost, one of its steps being 1.
const RUN: f64 = 60.0;

pub fn all() -> Vec<Case> {
    let mut cases: Vec<Case> = labels().iter().flat_map(|(what, tables)| press(what, tables)).collect();
    let limits = |what: &str| format!("every table at its limit, {what}");
    cases.push(run(limits("256 LABELs and 256 JUMP-UNLESSes in a ring"), Some(RUN), inputs::ring(), 0, STEPS));
    for (jump, (tables, row)) in [("JUMP", inputs::jump_last()), ("JUMP-UNLESS", inputs::unless_last())] {
        let what = format!("a loop of LABEL and {jump} in the last rows");
        cases.push(run(limits(&what), Some(RUN), tables, row, STEPS));
    }
    cases.push(run("8 regions, a loop of LABEL and JUMP".to_string(), None, inputs::small_loop(), 0, STEPS));
    let (tables, steps) = inputs::countdown(STEPS);
    cases.push(run("8 regions, a cell counted down to 0".to_string(), None, tables, 0, steps));
    cases
}

fn labels() -> [(&'static str, Tables); 6] {
    use Labels::*;
    [
        ("256 JUMPs and 256 LABELs", inputs::jumps(Consecutive)),
        ("256 JUMPs and 256 LABELs, scattered numbers", inputs::jumps(Scattered)),
        ("256 JUMPs and 256 LABELs of one bucket", inputs::jumps(OneBucket)),
        ("512 LABELs", inputs::labels(Consecutive)),
        ("512 LABELs, scattered numbers", inputs::labels(Scattered)),
        ("512 LABELs of one bucket", inputs::labels(OneBucket)),
    ]
}

/// Forward and back at row 0 beside one read; forward beside one at a classical row of tables without labels.
fn press(what: &str, tables: &Tables) -> Vec<Case> {
    let input = format!("every table at its limit, {what}");
    let mut cases: Vec<Case> = presses(&input, Some(4.0), tables, 0, &[]).into();
    let (limits, classical) = (inputs::limits(), inputs::LIMITS_CLASSICAL);
    cases.push(Case {
        call: "forward",
        input,
        goal: Some(PRESS),
        against: Against::OneForward,
        ours: forward(tables.clone(), opened(tables), [0; 3], Vec::new()),
        theirs: forward(limits.clone(), opened(&limits), [classical, 0, 0], Vec::new()),
    });
    cases
}

fn opened(tables: &Tables) -> Buffers {
    let (mut memory, journal) = buffers();
    assert_eq!(raw::open(&lent(tables), &mut memory, &journal, &mut [0; 3], &mut [0; 6]), 0);
    (memory, journal)
}

/// A run of that many steps from a row, beside one forward at it. Both start anew each time: the rows leave memory as it
/// was, or set it first.
fn run(input: String, goal: Option<f64>, tables: Tables, row: u64, steps: u64) -> Case {
    let (start, lent_words) = ([row, 0, 0], opened(&tables));
    Case {
        call: "run",
        input: format!("{input}, {steps} steps"),
        goal,
        against: Against::OneForward,
        ours: run_call(tables.clone(), lent_words.clone(), start, steps),
        theirs: forward(tables, lent_words, start, Vec::new()),
    }
}

fn run_call(tables: Tables, (mut memory, mut journal): Buffers, start: [u64; 3], steps: u64) -> Call {
    Box::new(move || {
        let (tables, mut position, mut ran) = (lent(&tables), start, [0; 3]);
        let answer = raw::run(hidden(&tables), &mut memory, &mut journal, &mut position, steps, &mut ran);
        assert_eq!(hidden((answer, ran)), (0, [steps, 0, 0]));
    })
}
