//! `resolve`, `access` and the walk beside `resolve_arguments`, `default_memory_accesses` and `memory_references`.
use crate::{
    case::{hidden, Against, Case},
    inputs::{self, Names},
};
use library::lent;
use mugwortlatch::Walk;
use oracle::{
    expression::{plain_leaf, tree},
    program::{call, program, Naming},
    signatures::signatures,
};
use tables::Tables;

pub fn all() -> Vec<Case> {
    let mut cases = Vec::new();
    for parameters in [1, 8, 64, 256] {
        let tables = |names| {
            let mut tables = inputs::regions(8, 8);
            inputs::externs(&mut tables, 1, parameters);
            inputs::calls(&mut tables, 1, names);
            tables
        };
        let input = |what: &str| format!("arguments: {parameters}, {what}");
        cases.push(resolve(input("all fit"), tables(Names::Fitting), 0, true));
        cases.push(resolve(input("all fail"), tables(Names::Undeclared), 0, false));
        cases.push(access(input("names of 8 regions"), tables(Names::Fitting), 0));
        cases.push(access(input("each another name"), tables(Names::Undeclared), 0));
        let mut mutable = tables(Names::Undeclared);
        inputs::all_mutable(&mut mutable);
        cases.push(access(input("each another name, all mutable"), mutable, 0));
    }
    let input = "arguments: 8, all fit; every table at its limit";
    cases.push(resolve(input.to_string(), inputs::limits(), 0, true));
    cases.push(access(input.to_string(), inputs::limits(), 0));
    cases.extend(walks());
    cases
}

fn walks() -> Vec<Case> {
    let deep = |count| walk(format!("a deep tree of {count} nodes"), inputs::deep_trees(1, count), count);
    let mut cases: Vec<Case> = [16, 128, 2048].map(deep).into();
    cases.push(walk(
        "a tree of 2048 nodes, deep on the left, all leaves addresses".to_string(),
        inputs::left_tree(),
        2048,
    ));
    cases.push(walk("a chain of 2048 nodes".to_string(), inputs::chain(), 2048));
    cases.push(walk("a deep tree of 16 nodes; 2048 in the table".to_string(), inputs::deep_trees(128, 16), 16));
    cases
}

fn resolve(input: String, tables: Tables, row: u64, fits: bool) -> Case {
    let declarations = Tables { regions: tables.regions.clone(), ..Tables::default() };
    let regions = program(&declarations, Naming::Plain).expect("regions").memory_regions;
    let signatures = signatures(&tables).expect("names that quil-rs takes");
    let call = call(&tables, tables.instruction(row as usize)).expect("a CALL");
    let mut rows = vec![0; tables.arguments.len() / tables::ARGUMENT * 7];
    assert_eq!(call.resolve_arguments(&regions, &signatures).is_ok(), fits, "{input}");
    assert_eq!(mugwortlatch::resolve(&lent(&tables), row, &mut rows).is_ok(), fits, "{input}");
    Case {
        call: "resolve",
        input,
        goal: Some(1.0),
        against: Against::QuilRs,
        ours: Box::new(move || {
            let _ = hidden(&mugwortlatch::resolve(hidden(&lent(&tables)), row, hidden(&mut rows)));
        }),
        theirs: Box::new(move || {
            let _ = hidden(&hidden(&call).resolve_arguments(hidden(&regions), hidden(&signatures)));
        }),
    }
}

fn access(input: String, tables: Tables, row: u64) -> Case {
    let signatures = signatures(&tables).expect("names that quil-rs takes");
    let call = call(&tables, tables.instruction(row as usize)).expect("a CALL");
    let room = tables.arguments.len() / tables::ARGUMENT;
    let (mut reads, mut writes) = (vec![0; room], vec![0; room]);
    let sets = mugwortlatch::access(&lent(&tables), row, &mut reads, &mut writes).expect("accepted");
    let accesses = call.accesses(&signatures).expect("accepted");
    assert_eq!([sets.reads.len(), sets.writes.len()], [accesses.reads.len(), accesses.writes.len()], "{input}");
    Case {
        call: "access",
        input,
        goal: Some(1.0),
        against: Against::QuilRs,
        ours: Box::new(move || {
            let tables = lent(&tables);
            let _ = hidden(&mugwortlatch::access(hidden(&tables), row, hidden(&mut reads), &mut writes));
        }),
        theirs: Box::new(move || {
            let _ = hidden(&hidden(&call).accesses(hidden(&signatures)));
        }),
    }
}

/// All references of the tree that the first nodes are; the indices are added up, so that each is looked at.
fn walk(input: String, nodes: Vec<u64>, count: u64) -> Case {
    let first = &nodes[..count as usize * tables::NODE];
    let expression = tree(first, |_, node| plain_leaf(node)).expect("one tree");
    let add = |sum: u64, index: u64| sum.wrapping_add(index).wrapping_add(1);
    let ours = move || {
        let (nodes, mut walk) = (hidden(&nodes), Walk::new());
        let all = walk.memory_references(nodes, 0, count).expect("accepted");
        all.fold(0, |sum, reference| add(sum, reference.index))
    };
    let theirs = move || {
        let all = hidden(&expression).memory_references();
        all.fold(0, |sum, reference| add(sum, reference.index))
    };
    assert_eq!(ours(), theirs(), "{input}");
    Case {
        call: "references",
        input,
        goal: Some(1.0),
        against: Against::QuilRs,
        ours: Box::new(move || {
            hidden(ours());
        }),
        theirs: Box::new(move || {
            hidden(theirs());
        }),
    }
}
