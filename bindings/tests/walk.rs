//! The walk: every small tree, random ones and the largest, whole, by lists of any length and one reference at a time;
//! what a list must not touch; both refusals.
use mugwortlatch::{flattened, raw, sizes, MemoryReference, Node, Refusal, Walk};

/// What lent words hold before a call.
const BLANK: u64 = 0x5EED;

type Row = [u64; sizes::NODE_WIDTH];

fn address(index: u64) -> Node {
    Node::Address(MemoryReference { name: u64::MAX - index / 2, index })
}

/// The references of the tree that begins at `at`, by going down it; none where it is cut off. `at` is left after it.
fn down(rows: &[Row], at: &mut usize) -> Option<Vec<MemoryReference>> {
    let &[tag, name, index] = rows.get(*at)?;
    *at += 1;
    let mut found = Vec::new();
    match tag {
        0 => found.push(MemoryReference { name, index }),
        1 | 5 => found.extend(down(rows, at)?),
        2 => {
            found.extend(down(rows, at)?);
            found.extend(down(rows, at)?);
        }
        _ => {}
    }
    Some(found)
}

/// The same where the rows are exactly one tree.
fn expected(rows: &[Row]) -> Option<Vec<MemoryReference>> {
    let mut end = 0;
    down(rows, &mut end).filter(|_| end == rows.len())
}

fn whole(nodes: &[u64], first: u64, count: u64) -> Result<Vec<MemoryReference>, Refusal> {
    Ok(Walk::new().memory_references(nodes, first, count)?.collect())
}

/// By `raw::reference`, until the end.
fn one_by_one(nodes: &[u64], first: u64, count: u64) -> Vec<MemoryReference> {
    let (mut place, mut all) = ([0], Vec::new());
    loop {
        let mut found = [BLANK; 3];
        assert_eq!(raw::reference(nodes, first, count, &mut place, &mut found), 0);
        match found {
            [1, name, index] => all.push(MemoryReference { name, index }),
            end => {
                assert_eq!(end, [0; 3]);
                return all;
            }
        }
    }
}

/// One call with a list of that many words, which has to leave the words past its rows alone.
fn list(nodes: &[u64], first: u64, count: u64, place: &mut [u64; 1], words: usize) -> Vec<MemoryReference> {
    let (mut rows, mut written) = (vec![BLANK; words], [BLANK]);
    assert_eq!(raw::references(nodes, first, count, place, &mut rows, &mut written), 0);
    let (handed, rest) = rows.split_at(written[0] as usize * sizes::REFERENCE_WIDTH);
    assert!(rest.iter().all(|word| *word == BLANK));
    handed.chunks(2).map(|row| MemoryReference { name: row[0], index: row[1] }).collect()
}

/// By lists of these lengths in words, each from the place where the last one stopped, until one is not full.
fn by_lists(nodes: &[u64], first: u64, count: u64, mut words: impl FnMut() -> usize) -> Vec<MemoryReference> {
    let (mut place, mut all) = ([0], Vec::new());
    loop {
        let (words, before) = (words(), place[0]);
        let handed = list(nodes, first, count, &mut place, words);
        all.extend(&handed);
        if handed.len() < words / sizes::REFERENCE_WIDTH {
            assert_eq!(place, [count]);
            return all;
        }
        assert!(if handed.is_empty() { place[0] == before } else { place[0] > before });
    }
}

/// Whole, one by one, and by lists of no room, one row, odd lengths and more, `expected` comes out.
fn agrees(nodes: &[u64], first: u64, count: u64, expected: &[MemoryReference]) {
    assert_eq!(whole(nodes, first, count).as_deref(), Ok(expected));
    assert_eq!(one_by_one(nodes, first, count), expected);
    for words in [2, 3, 4, 7, 2 * expected.len() + 1, 2 * expected.len() + 2] {
        let mut lengths = [0, words, 1, words, 2, words].into_iter().cycle();
        assert_eq!(by_lists(nodes, first, count, || lengths.next().unwrap()), expected);
    }
}

/// Numbers by chance: splitmix64.
struct Random(u64);

impl Random {
    fn below(&mut self, bound: u64) -> u64 {
        self.0 = self.0.wrapping_add(0x9E37_79B9_7F4A_7C15);
        let z = (self.0 ^ (self.0 >> 30)).wrapping_mul(0xBF58_476D_1CE4_E5B9);
        let z = (z ^ (z >> 27)).wrapping_mul(0x94D0_49BB_1331_11EB);
        (z ^ (z >> 31)) % bound
    }

    /// A tree of about that many nodes, most leaves addresses.
    fn tree(&mut self, most: usize) -> Vec<Row> {
        let (mut rows, mut open) = (Vec::new(), 1);
        while open > 0 {
            let kind = if rows.len() + open < most { self.below(9) } else { 5 + self.below(4) };
            let (node, children) = match kind {
                0..=2 => (Node::Infix, 2),
                3 => (Node::Prefix, 1),
                4 => (Node::FunctionCall, 1),
                5 => (Node::Variable(self.below(9)), 0),
                6 => (Node::Number(0.5, 0.0), 0),
                _ => (address(self.below(9)), 0),
            };
            rows.push(node.row());
            open = open + children - 1;
        }
        rows
    }
}

#[test]
fn every_small_tree() {
    let tags = [Node::FunctionCall, Node::Infix, Node::Number(1.5, -2.0), Node::Pi, Node::Prefix, Node::Variable(3)];
    let mut trees = 0;
    for length in 1..=5u32 {
        for number in 0..7usize.pow(length) {
            let node = |k: u32| tags.get(number / 7usize.pow(k) % 7).copied().unwrap_or(address(k.into()));
            let rows: Vec<Row> = (0..length).map(|k| node(k).row()).collect();
            let (nodes, count) = (flattened(&rows), length.into());
            match expected(&rows) {
                Some(expected) => {
                    agrees(nodes, 0, count, &expected);
                    trees += 1;
                }
                None => assert_eq!(whole(nodes, 0, count), Err(Refusal::WordNotAllowed)),
            }
        }
    }
    // By length, with 4 sorts of leaves, 2 of nodes with one child and 1 with two.
    assert_eq!(trees, 4 + 8 + 32 + 128 + 576);
}

#[test]
fn random_trees_among_others() {
    let mut random = Random(1);
    for turn in 0..300 {
        let (before, tree, after) = (random.tree(9), random.tree(1 + turn), random.tree(9));
        let rows = [&before[..], &tree, &after].concat();
        let (nodes, first, count) = (flattened(&rows), before.len() as u64, tree.len() as u64);
        let expected = expected(&tree).expect("a tree");
        agrees(nodes, first, count, &expected);
        let by_chance = by_lists(nodes, first, count, || random.below(12) as usize);
        assert_eq!(by_chance, expected);
    }
}

#[test]
fn the_largest_trees() {
    let (infix, leaves) = (sizes::NODE_LIMIT / 2 - 1, sizes::REFERENCE_LIMIT);
    let leaf = |index: usize| address(index as u64).row();
    let mut left = vec![Node::Prefix.row()];
    left.extend(vec![Node::Infix.row(); infix]);
    left.extend((0..leaves).map(leaf));
    let mut right: Vec<Row> = (0..infix).flat_map(|index| [Node::Infix.row(), leaf(index)]).collect();
    right.push(leaf(infix));
    for rows in [left, right] {
        let expected = expected(&rows).expect("a tree");
        assert_eq!(expected.len(), sizes::REFERENCE_LIMIT);
        let (nodes, count) = (flattened(&rows), rows.len() as u64);
        assert_eq!(whole(nodes, 0, count), Ok(expected.clone()));
        assert_eq!(one_by_one(nodes, 0, count), expected);
        assert_eq!(by_lists(nodes, 0, count, || 101), expected);
    }
}

#[test]
fn the_end_is_for_good() {
    let rows = [Node::Infix, address(1), address(2)].map(Node::row);
    let nodes = flattened(&rows);
    for given in [3, 4, u64::MAX] {
        for words in [2, 3, 8] {
            let mut place = [given];
            assert_eq!(list(nodes, 0, 3, &mut place, words), []);
            assert_eq!(place, [3]);
        }
        let mut place = [given];
        assert_eq!(list(nodes, 0, 3, &mut place, 1), []);
        assert_eq!(place, [given]);
    }
    let mut walk = Walk::new();
    let mut references = walk.memory_references(nodes, 0, 3).unwrap();
    assert_eq!(references.len(), 2);
    assert!(references.by_ref().eq([1, 2].map(|index| MemoryReference { name: u64::MAX - index / 2, index })));
    assert_eq!((references.next(), references.next()), (None, None));
}

/// The refusal, at every length of list; nothing is written.
fn refused(nodes: &[u64], first: u64, count: u64) -> u64 {
    let number = whole(nodes, first, count).unwrap_err().number();
    for words in 0..5 {
        let (mut place, mut rows, mut written) = ([BLANK], vec![BLANK; words], [BLANK]);
        assert_eq!(raw::references(nodes, first, count, &mut place, &mut rows, &mut written), number);
        assert!(rows.iter().chain(&place).chain(&written).all(|word| *word == BLANK));
    }
    number
}

#[test]
fn refusals() {
    let rows = [Node::Infix, address(1), Node::Prefix, address(2), address(3)].map(Node::row);
    let nodes = flattened(&rows);
    assert!(whole(nodes, 0, 4).is_ok() && whole(nodes, 4, 1).is_ok());
    // Not whole rows, also where the range is bad too; over the limit.
    assert_eq!(refused(&nodes[1..], 0, 4), 1);
    assert_eq!(refused(&nodes[..14], 9, 0), 1);
    assert_eq!(refused(&Node::Pi.row().repeat(sizes::NODE_LIMIT + 1), 0, 1), 1);
    // Too few nodes, too many, none; outside the table, also by wrapping round.
    for (first, count) in [(0, 3), (0, 5), (0, 0), (4, 2), (5, 1), (5, 0), (u64::MAX, 2), (1, u64::MAX)] {
        assert_eq!(refused(nodes, first, count), 2, "{first}, {count}");
    }
    // A word that is not allowed, outside the range too.
    for (word, value) in [(0, 7), (1, 1), (8, 1), (12, 7)] {
        let mut nodes = nodes.to_vec();
        nodes[word] = value;
        assert_eq!(refused(&nodes, 0, 4), 2, "{word}");
    }
}

#[test]
fn a_walk_serves_many_expressions() {
    let rows = [Node::Infix, address(1), address(2), address(3)].map(Node::row);
    let (nodes, mut walk) = (flattened(&rows), Walk::new());
    let mut count = |first, count| walk.memory_references(nodes, first, count).map(|references| references.count());
    assert_eq!(count(0, 3), Ok(2));
    assert_eq!(count(0, 2), Err(Refusal::WordNotAllowed));
    assert_eq!(count(3, 1), Ok(1));
}
