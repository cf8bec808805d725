//! One program asked on both sides.
use crate::{ask::ask, program::Program};
use tables::{Answer, Console, Query};

pub struct Difference {
    pub query: Query,
    pub expected: Result<Answer, String>,
    pub got: Result<Answer, String>,
}

/// Asks everything about the program; `seen` gets each answer that agrees. The first difference ends it.
pub fn difference(
    console: &dyn Console,
    program: &Program,
    room: usize,
    mut seen: impl FnMut(Query, &Answer),
) -> Option<Difference> {
    let tables = program.tables();
    for query in program.queries(&tables, room) {
        let expected = oracle::answer(&tables, query);
        let got = ask(console, &tables, query);
        match (&expected, &got) {
            (Ok(answer), Ok(other)) if answer == other => seen(query, answer),
            _ => return Some(Difference { query, expected, got }),
        }
    }
    None
}
