//! `check`, and `frame` of a program of one row, beside `type_check`.
use crate::{
    case::{hidden, Against, Case},
    inputs,
};
use library::lent;
use mugwortlatch::FrameRefusal;
use oracle::program::{program, Naming};
use quil_rs::program::type_check::type_check;
use tables::Tables;

const ROWS: [u64; 3] = [8, 64, 512];

/// Nodes on the right of a leaf that fails, to the most that a table has room for.
const RIGHT: [u64; 3] = [16, 128, 2046];

pub fn all() -> Vec<Case> {
    let mut cases = Vec::new();
    for regions in [8, 64] {
        for rows in ROWS {
            let mut tables = inputs::regions(regions, 8);
            inputs::classical(&mut tables, rows);
            cases.push(case(format!("rows: {rows}, {regions} regions, accepted"), tables.clone(), true));
            inputs::fail_last(&mut tables);
            cases.push(case(format!("rows: {rows}, {regions} regions, last fails"), tables, false));
        }
    }
    for rows in ROWS {
        let (mut tables, nodes) = (inputs::regions(8, 8), 2048 / rows);
        inputs::frames(&mut tables, rows, nodes);
        cases.push(case(format!("frames: {rows}, each a deep tree of {nodes} nodes"), tables, true));
    }
    let mut tables = inputs::regions(8, 8);
    inputs::classical(&mut tables, 512);
    inputs::unused_first(&mut tables, 56);
    cases.push(case("rows: 512, 64 regions, the last 8 in use".to_string(), tables, true));
    let mut tables = inputs::regions(64, 8);
    inputs::classical(&mut tables, 8);
    inputs::share_mark(&mut tables);
    cases.push(case("rows: 8, 64 regions, names of one mark".to_string(), tables, true));
    for rows in [1, 8, 512] {
        let mut tables = inputs::regions(8, 8);
        inputs::shared_frames(&mut tables, rows, 2048);
        cases.push(case(format!("frames: {rows}, all one deep tree of 2,048 nodes"), tables, true));
    }
    cases.push(case("every table at its limit".to_string(), inputs::limits(), true));
    cases.extend(RIGHT.iter().flat_map(|&right| left_fails(right)));
    cases
}

/// A frame whose left leaf fails, by both calls; and the same behind a row that fails, where the frame is not judged. What
/// `check` costs less there is the frame's own check less that row's: it must not grow with the right side.
fn left_fails(right: u64) -> [Case; 3] {
    let mut tables = inputs::regions(8, 8);
    inputs::left_fails(&mut tables, right);
    let input = format!("a frame whose left leaf fails, {right} nodes on the right");
    let alone = frame(input.clone(), tables.clone());
    let whole = case(input, tables.clone(), false);
    inputs::fail_first(&mut tables);
    [alone, whole, case(format!("the same frame behind a row that fails, {right} nodes on the right"), tables, false)]
}

/// Two nodes are looked at: the infix and its left leaf.
fn frame(input: String, tables: Tables) -> Case {
    let frame = mugwortlatch::frame(&lent(&tables), 0);
    assert!(matches!(frame, Err(FrameRefusal::Error { looked: 2, .. })), "{input}");
    let theirs = case(input, tables.clone(), false);
    let ours = Box::new(move || {
        let _ = hidden(&mugwortlatch::frame(hidden(&lent(&tables)), 0));
    });
    Case { call: "frame", ours, ..theirs }
}

fn case(input: String, tables: Tables, accepted: bool) -> Case {
    let converted = program(&tables, Naming::Plain).expect("tables that quil-rs takes");
    assert_eq!(type_check(&converted).is_ok(), accepted, "{input}");
    assert_eq!(mugwortlatch::check(&lent(&tables)).is_ok(), accepted, "{input}");
    Case {
        call: "check",
        input,
        goal: Some(1.0),
        against: Against::QuilRs,
        ours: Box::new(move || {
            let _ = hidden(&mugwortlatch::check(hidden(&lent(&tables))));
        }),
        theirs: Box::new(move || {
            let _ = hidden(&type_check(hidden(&converted)));
        }),
    }
}
