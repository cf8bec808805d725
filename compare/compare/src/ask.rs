//! Asks the library, and looks after every word that was lent.
use crate::{
    lent::{blanks_array, Lent},
    walk::walk,
};
use tables::{Answer, Console, Query, Tables};

/// The library's answer with all lent contents, or what it did that no call may do.
pub fn ask(console: &dyn Console, tables: &Tables, query: Query) -> Result<Answer, String> {
    let before = tables.clone();
    let answer = match query {
        Query::Check => {
            let mut error = blanks_array();
            let number = console.check(tables, &mut error);
            Answer { number, out: error.to_vec(), lent: Vec::new() }
        }
        Query::Frame { row } => {
            let (mut looked, mut error) = (blanks_array(), blanks_array());
            let number = console.frame(tables, row, &mut looked, &mut error);
            Answer { number, out: looked.to_vec(), lent: vec![error.to_vec()] }
        }
        Query::Resolve { row, room } => {
            let mut rows = Lent::new(room);
            let mut count = blanks_array();
            let number = console.resolve(tables, row, rows.buffer(), &mut count);
            let lent = vec![rows.taken_back().ok_or("wrote beside the rows")?];
            Answer { number, out: count.to_vec(), lent }
        }
        Query::Access { row, room } => {
            let mut reads = Lent::new(room[0]);
            let mut writes = Lent::new(room[1]);
            let mut counts = blanks_array();
            let number = console.access(tables, row, reads.buffer(), writes.buffer(), &mut counts);
            let lent = vec![
                reads.taken_back().ok_or("wrote beside the reads")?,
                writes.taken_back().ok_or("wrote beside the writes")?,
            ];
            Answer { number, out: counts.to_vec(), lent }
        }
        Query::References { first, count } => walk(console, &tables.nodes, first, count)?,
    };
    if *tables != before {
        return Err("a table was written".to_string());
    }
    Ok(answer)
}
