//! One frame's check: each sort of leaf at the first, middle and last places; every small tree; the largest; frames
//! among bad rows; the answers as enums; every refusal, and that it writes nothing.
mod bench;

use bench::*;
use mugwortlatch::{
    check, flattened, frame, raw, sizes, Code, FrameOperator, FrameRefusal, Instruction, Node, Refusal, Spot, Tables,
    TypeErrorKind,
};

/// What lent words hold before a call.
const BLANK: u64 = 0x5EED;

/// A type error's kind and first code.
type Fault = (u64, u64);
const UNDECLARED: Fault = (1, 8);
const VARIABLE: Fault = (3, 7);

/// The number returned, `looked` and `error`.
type Answer = (u64, u64, [u64; 6]);
const REFUSED_2: Answer = (2, BLANK, [BLANK; 6]);

fn passed(nodes: usize) -> Answer {
    (0, nodes as u64, [BLANK; 6])
}

fn failed(row: u64, place: usize, (kind, code): Fault) -> Answer {
    (5, place as u64 + 1, [kind, row, 4 + place as u64, 0, code, 8])
}

fn set_phase(first_node: usize, node_count: usize) -> Row {
    let (first_node, node_count) = (first_node as u64, node_count as u64);
    Instruction::Frame { operator: FrameOperator::SetPhase, first_node, node_count }.row()
}

fn asked(tables: &Tables, row: u64) -> Answer {
    let (mut looked, mut error) = ([BLANK], [BLANK; 6]);
    let number = raw::frame(tables, row, &mut looked, &mut error);
    (number, looked[0], error)
}

/// The answer for a frame of these nodes, alone in its program. Its number and error are check's.
fn judged(nodes: &[Node]) -> Answer {
    let (rows, words) = ([set_phase(0, nodes.len())], nodes.iter().flat_map(|node| node.row()).collect::<Vec<u64>>());
    let tables = Tables { nodes: &words, ..bench(&rows) };
    let (answer, mut error) = (asked(&tables, 0), [BLANK; 6]);
    assert_eq!((raw::check(&tables, &mut error), error), (answer.0, answer.2));
    answer
}

/// Leaves, with what is wrong with those that fail. No index and no real part counts.
fn leaves() -> [(Node, Option<Fault>); 13] {
    let address = |name| Node::Address(at(name, u64::MAX));
    let number = |imaginary| Node::Number(f64::NAN, f64::from_bits(imaginary));
    let imaginary = Some((3, 6));
    [
        (address(A), Some((3, 0))),
        (address(N), Some((3, 1))),
        (address(O), Some((3, 2))),
        (address(R), None),
        (address(Q), Some(UNDECLARED)),
        (number(0x3CB0_0000_0000_0000), None),
        (number(0xBCB0_0000_0000_0000), None),
        (number(0x3CB0_0000_0000_0001), imaginary),
        (number(0xBCB0_0000_0000_0001), imaginary),
        (number(0xFFF0_0000_0000_0000), imaginary),
        (number(0x7FF8_0000_0000_0000), None),
        (Node::Pi, None),
        (Node::Variable(R), Some(VARIABLE)),
    ]
}

/// Each leaf in the tree at that place.
fn each_leaf(tree: &[Node], place: usize) {
    for (leaf, fault) in leaves() {
        let mut nodes = tree.to_vec();
        nodes[place] = leaf;
        assert_eq!(judged(&nodes), fault.map_or(passed(tree.len()), |fault| failed(0, place, fault)), "{nodes:?}");
    }
}

#[test]
fn each_leaf_at_each_place() {
    use Node::{FunctionCall, Infix, Pi, Prefix};
    each_leaf(&[Pi], 0);
    // ((pi+pi)+pi)+pi, and pi+(-pi)*cos(pi)
    [3, 4, 5, 6].iter().for_each(|place| each_leaf(&[Infix, Infix, Infix, Pi, Pi, Pi, Pi], *place));
    [1, 4, 6].iter().for_each(|place| each_leaf(&[Infix, Pi, Infix, Prefix, Pi, FunctionCall, Pi], *place));
}

/// The place after the tree that begins at `at`; none where it is cut off.
fn end(nodes: &[Node], at: usize) -> Option<usize> {
    match nodes.get(at)? {
        Node::FunctionCall | Node::Prefix => end(nodes, at + 1),
        Node::Infix => end(nodes, end(nodes, at + 1)?),
        _ => Some(at + 1),
    }
}

/// The same down the tree, the left side first, or at once the first place that fails.
fn down(nodes: &[Node], at: usize) -> Result<usize, (usize, Fault)> {
    match nodes[at] {
        Node::FunctionCall | Node::Prefix => down(nodes, at + 1),
        Node::Infix => down(nodes, down(nodes, at + 1)?),
        Node::Address(_) => Err((at, UNDECLARED)),
        Node::Variable(_) => Err((at, VARIABLE)),
        _ => Ok(at + 1),
    }
}

/// None where the nodes are not exactly one tree.
fn expected(nodes: &[Node]) -> Option<Answer> {
    end(nodes, 0).filter(|end| *end == nodes.len())?;
    Some(down(nodes, 0).map_or_else(|(place, fault)| failed(0, place, fault), passed))
}

#[test]
fn every_small_tree() {
    let sorts = [Node::FunctionCall, Node::Infix, Node::Prefix, Node::Pi, Node::Variable(3), Node::Address(at(Q, 0))];
    let mut trees = 0;
    for length in 1..=5u32 {
        for number in 0..6usize.pow(length) {
            let nodes: Vec<Node> = (0..length).map(|place| sorts[number / 6usize.pow(place) % 6]).collect();
            let expected = expected(&nodes);
            trees += usize::from(expected.is_some());
            assert_eq!(judged(&nodes), expected.unwrap_or(REFUSED_2), "{nodes:?}");
        }
    }
    // By length, with 3 sorts of leaves, 2 of nodes with one child and 1 with two.
    assert_eq!(trees, 3 + 6 + 21 + 78 + 318);
}

/// Leaves from the last to the leftmost turned bad, one after the other: each time the leftmost is told.
#[test]
fn the_largest_tree() {
    let leaves = sizes::NODE_LIMIT / 2;
    let mut nodes = [vec![Node::Prefix], vec![Node::Infix; leaves - 1], vec![Node::Pi; leaves]].concat();
    assert_eq!(judged(&nodes), passed(sizes::NODE_LIMIT));
    for place in [2_047, 2_046, 1_500, 1_025, 1_024] {
        nodes[place] = Node::Variable(0);
        assert_eq!(judged(&nodes), failed(0, place, VARIABLE));
    }
}

/// -n[0]; pi+pi; a variable.
const NODES: [[u64; 3]; 6] = [[5, 0, 0], [0, N, 0], [2, 0, 0], [4, 0, 0], [4, 0, 0], [6, 0, 0]];

/// The row is the program's, the place its tree's. What other calls turn down in other rows, and regions too large to
/// open, do not count.
#[test]
fn among_other_rows() {
    let other = [add(at(A, 0), 1), call(Q, 0, 0), Instruction::AnyOther.row()];
    let frames = [set_phase(0, 2), set_phase(1, 1), set_phase(2, 3), set_phase(5, 1)];
    let rows = [&other[..], &frames].concat();
    let tables = Tables { nodes: flattened(&NODES), ..bench(&rows) };
    assert_eq!(asked(&tables, 3), failed(3, 1, (3, 1)));
    assert_eq!(asked(&tables, 4), failed(4, 0, (3, 1)));
    assert_eq!(asked(&tables, 5), passed(3));
    assert_eq!(asked(&tables, 6), failed(6, 0, VARIABLE));
    let large = Tables { regions: &[N, 3, 4_097], ..tables };
    assert_eq!(asked(&large, 3), passed(2));
}

#[test]
fn as_enums() {
    let rows = [Instruction::Nop.row(), set_phase(0, 2), set_phase(2, 3)];
    let tables = Tables { nodes: flattened(&NODES), ..bench(&rows) };
    assert_eq!(frame(&tables, 0), Err(FrameRefusal::Refused(Refusal::WordNotAllowed)));
    assert_eq!(frame(&tables, 2), Ok(3));
    let refused = frame(&tables, 1).unwrap_err();
    assert_eq!(check(&tables), Err(refused.into()));
    match refused {
        FrameRefusal::Error { error, looked } => {
            assert_eq!((error.row, error.spot, error.src_spot, looked), (1, Spot::Node(1), None, 2));
            assert_eq!(error.kind, TypeErrorKind::RealRequired { found: Code::Integer });
            assert_eq!(refused.to_string(), format!("{}; nodes looked at: 2", Refusal::TypeError(error)));
        }
        FrameRefusal::Refused(refusal) => panic!("{refusal}"),
    }
}

/// The refusal's number; nothing is written.
fn refused(tables: &Tables, row: u64) -> u64 {
    let number = frame(tables, row).unwrap_err().refusal().number();
    assert_eq!(asked(tables, row), (number, BLANK, [BLANK; 6]));
    number
}

/// Each before those after it: rows 0 and 1 are a frame that fails and no frame, row 2 is absent.
#[test]
fn refusals_in_order() {
    let rows = [set_phase(5, 1), Instruction::Nop.row()];
    let tables = Tables { nodes: flattened(&NODES), ..bench(&rows) };
    let with_regions = |regions| Tables { regions, ..tables };
    assert_eq!(refused(&with_regions(&[R, 4]), 2), 1);
    assert_eq!(refused(&Tables { nodes: &Node::Pi.row().repeat(sizes::NODE_LIMIT + 1), ..tables }, 2), 1);
    assert_eq!(refused(&with_regions(&[R, 4, 1, R, 3, 1]), 0), 2);
    let twice = with_regions(&[R, 3, 1, R, 3, 1]);
    [1, 2, u64::MAX].iter().for_each(|row| assert_eq!(refused(&twice, *row), 2));
    assert_eq!(refused(&twice, 0), 3);
    assert_eq!(refused(&Tables { externs: &[7, 4, 0, 0, 7, 4, 0, 0], ..tables }, 0), 3);
    assert_eq!(refused(&Tables::default(), 0), 2);
    assert_eq!(asked(&tables, 0), failed(0, 0, VARIABLE));
}

/// A row of every family, of which the frame's alone can be chosen.
#[test]
fn no_other_family() {
    let form = |family| match family {
        3 | 5 | 9..=15 => 3,
        6 => 2,
        _ => 0,
    };
    let mut rows: Vec<Row> = (0..=15).map(|family| [family, 0, 0, 0, 0, 0, form(family), 0, 0]).collect();
    rows[8] = set_phase(2, 3);
    let tables = Tables { nodes: flattened(&NODES), ..bench(&rows) };
    let expected = |row| if row == 8 { passed(3) } else { REFUSED_2 };
    (0..=15).for_each(|row| assert_eq!(asked(&tables, row), expected(row), "{row}"));
}
