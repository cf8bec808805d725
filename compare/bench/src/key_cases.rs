//! A key press, forward and back, beside one read of all words of the tables.
use crate::{
    case::{hidden, Against, Call, Case},
    inputs,
};
use library::lent;
use mugwortlatch::{raw, sizes, Kind, Reply};
use tables::Tables;

pub fn all() -> Vec<Case> {
    let mut cases = Vec::new();
    for rows in [8, 64, 512] {
        let mut tables = inputs::regions(8, 8);
        inputs::classical(&mut tables, rows);
        cases.extend(presses(&format!("8 regions, {rows} classical rows"), None, &tables, 0, &[]));
    }
    for (more, tables) in one_at_its_limit() {
        cases.extend(presses(&format!("{more}, 8 classical rows"), None, &tables, 0, &[]));
    }
    let mut at_limits = |what: &str, tables: &Tables, row, reply: &[u64]| {
        cases.extend(presses(&format!("every table at its limit, {what}"), Some(4.0), tables, row, reply));
    };
    let limits = inputs::limits();
    at_limits("a classical row", &limits, inputs::LIMITS_CLASSICAL, &[]);
    at_limits("a CALL, reply of 64 rows", &limits, 0, &reply());
    at_limits("512 frames over all 2,048 nodes", &inputs::overlapping(), 0, &[]);
    let mut one_mark = limits.clone();
    inputs::share_mark(&mut one_mark);
    at_limits("names of one mark", &one_mark, inputs::LIMITS_CLASSICAL, &[]);
    cases.push(reads(limits));
    cases
}

/// Small tables, one of them grown: what a row of each costs.
fn one_at_its_limit() -> [(&'static str, Tables); 4] {
    let grown = |regions| {
        let mut tables = inputs::regions(regions, 8);
        inputs::classical(&mut tables, 8);
        tables
    };
    let Tables { externs, parameters, nodes, arguments, .. } = inputs::limits();
    [
        ("64 regions", grown(64)),
        ("8 regions, 32 externs of 8 parameters", Tables { externs, parameters, ..grown(8) }),
        ("8 regions, 2,048 nodes", Tables { nodes, ..grown(8) }),
        ("8 regions, 1,024 arguments", Tables { arguments, ..grown(8) }),
    ]
}

/// 64 rows for a CALL's first argument, a mutable INTEGER.
fn reply() -> Vec<u64> {
    let row = Reply { argument: 0, offset: 0, kind: Kind::Integer, word: 5 };
    row.row().repeat(sizes::REPLY_LIMIT)
}

/// Forward at a row, and back from it. The session stands there as if the rows before had used no journal: forward
/// and back look at no entry of theirs. Such a position is no session's, so these are the raw calls.
pub fn presses(input: &str, goal: Option<f64>, tables: &Tables, row: u64, reply: &[u64]) -> [Case; 2] {
    let (mut memory, mut journal) = buffers();
    assert_eq!(raw::open(&lent(tables), &mut memory, &journal, &mut [0; 3], &mut [0; 6]), 0, "{input}");
    let (before, mut position) = ([row, 0, 0], [row, 0, 0]);
    assert_eq!(raw::forward(&lent(tables), &mut memory, &mut journal, &mut position, reply), 0, "{input}");
    let after = position;
    assert_eq!(raw::back(&lent(tables), &mut memory, &journal, &mut position), 0, "{input}");
    assert_eq!(position, before, "{input}");
    let case = |call, ours| Case {
        call,
        input: input.to_string(),
        goal,
        against: Against::OneRead,
        ours,
        theirs: one_read(tables.clone()),
    };
    let buffers = (memory.clone(), journal.clone());
    let forward = forward(tables.clone(), buffers, before, reply.to_vec());
    [case("forward", forward), case("back", back(tables.clone(), (memory, journal), after))]
}

pub fn forward(tables: Tables, (mut memory, mut journal): Buffers, before: [u64; 3], reply: Vec<u64>) -> Call {
    Box::new(move || {
        let (tables, mut position) = (lent(&tables), before);
        let answer = raw::forward(hidden(&tables), &mut memory, &mut journal, &mut position, &reply);
        assert_eq!(hidden((answer, position)).0, 0);
    })
}

fn back(tables: Tables, (mut memory, journal): Buffers, after: [u64; 3]) -> Call {
    Box::new(move || {
        let (tables, mut position) = (lent(&tables), after);
        let answer = raw::back(hidden(&tables), &mut memory, &journal, &mut position);
        assert_eq!(hidden((answer, position)).0, 0);
    })
}

/// Memory and journal.
pub type Buffers = (Vec<u64>, Vec<u64>);

pub fn buffers() -> Buffers {
    (vec![0; sizes::MEMORY_WORDS], vec![0; sizes::JOURNAL_WORDS])
}

/// Each word loaded once, by itself: a volatile read keeps the compiler from loading several at a time.
fn one_read(tables: Tables) -> Call {
    Box::new(move || {
        for (_, _, words) in tables.in_order() {
            let sum = words.iter().fold(0u64, |sum, word| sum.wrapping_add(unsafe { std::ptr::read_volatile(word) }));
            hidden(sum);
        }
    })
}

/// The same words summed as the compiler likes best, several at a time.
fn reads(tables: Tables) -> Case {
    let theirs = one_read(tables.clone());
    let vector_read = move || {
        for (_, _, words) in tables.in_order() {
            hidden(hidden(words).iter().fold(0u64, |sum, word| sum.wrapping_add(*word)));
        }
    };
    Case {
        call: "(read)",
        input: "every table at its limit, by vector instructions".to_string(),
        goal: None,
        against: Against::OneRead,
        ours: Box::new(vector_read),
        theirs,
    }
}
