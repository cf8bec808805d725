//! The walk, asked one reference at a time and again by lists of small rooms: both must hand out the same.
use crate::{
    lent::{blanks_array, Lent},
    random_numbers::Random,
};
use tables::{blank, Answer, Console};

/// Lengths of lists, in words.
const ROOMS: [usize; 10] = [0, 1, 2, 3, 4, 5, 7, 16, 33, 128];

/// Words in a row of a list: name, index.
const REFERENCE: usize = 2;

/// A tree of a console.
struct Tree<'a> {
    console: &'a dyn Console,
    nodes: &'a [u64],
    first: u64,
    count: u64,
}

/// A call's answer.
struct Handed {
    number: u64,
    references: Vec<[u64; REFERENCE]>,
    /// The end was told.
    end: bool,
}

/// Every reference as 1, name, index; then the end twice, as 0, 0, 0.
pub fn walk(console: &dyn Console, nodes: &[u64], first: u64, count: u64) -> Result<Answer, String> {
    let tree = Tree { console, nodes, first, count };
    let answer = tree.until_two_ends(|place| tree.one(place))?;
    let mut random = Random::new(tree.seed());
    let by_lists = tree.until_two_ends(|place| tree.list(place, random.pick(&ROOMS)))?;
    if by_lists != answer {
        return Err(format!("one at a time {answer:x?}, by lists {by_lists:x?}"));
    }
    Ok(answer)
}

impl Tree<'_> {
    /// Another for each tree, the same on every machine.
    fn seed(&self) -> u64 {
        self.nodes.iter().fold(self.first, |seed, word| seed.rotate_left(7) ^ word)
    }

    /// The place has no counterpart: it must go on with each reference, and the end is at the last node.
    fn until_two_ends(&self, mut call: impl FnMut(&mut [u64; 1]) -> Result<Handed, String>) -> Result<Answer, String> {
        let (mut place, mut out, mut ends) = ([0], Vec::new(), 0);
        while ends < 2 {
            let before = place[0];
            let Handed { number, references, end } = call(&mut place)?;
            if number != 0 {
                return Ok(Answer { number, out, lent: Vec::new() });
            }
            let right = match (references.len() as u64, end) {
                (_, true) => place[0] == self.count,
                (0, false) => place[0] == before,
                (passed, false) => before + passed <= place[0] && place[0] <= self.count,
            };
            if !right {
                return Err(format!("{references:x?}, and the place went from {before} to {}", place[0]));
            }
            references.iter().for_each(|[name, index]| out.extend([1, *name, *index]));
            if end {
                out.extend([0, 0, 0]);
                ends += 1;
            }
        }
        Ok(Answer { number: 0, out, lent: Vec::new() })
    }

    fn one(&self, place: &mut [u64; 1]) -> Result<Handed, String> {
        let mut found = blanks_array();
        let number = self.console.reference(self.nodes, self.first, self.count, place, &mut found);
        match found {
            [1, name, index] => Ok(Handed { number, references: vec![[name, index]], end: false }),
            [0, 0, 0] => Ok(Handed { number, references: Vec::new(), end: true }),
            found => Err(format!("{number}, found {found:x?}")),
        }
    }

    /// By a list of that many words, which must stay as they were past the references.
    fn list(&self, place: &mut [u64; 1], room: usize) -> Result<Handed, String> {
        let (mut rows, mut count) = (Lent::new(room), blanks_array::<1>());
        let number = self.console.references(self.nodes, self.first, self.count, place, rows.buffer(), &mut count);
        let rows = rows.taken_back().ok_or("wrote beside the list")?;
        let most = room / REFERENCE;
        let handed = usize::try_from(count[0]).ok().filter(|handed| *handed <= most);
        let handed = handed.ok_or_else(|| format!("{number}, counted {:x}", count[0]))?;
        let (references, rest) = rows.split_at(handed * REFERENCE);
        if rest.iter().enumerate().any(|(i, word)| *word != blank(references.len() + i)) {
            return Err("wrote past the references".to_string());
        }
        let references = references.chunks(REFERENCE).map(|row| [row[0], row[1]]).collect();
        Ok(Handed { number, references, end: handed < most })
    }
}
