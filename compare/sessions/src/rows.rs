//! One more instruction row: of operands by their kinds.
use crate::{programs::Builder, values};

pub const NOP: [u64; 9] = [10, 0, 0, 0, 0, 0, 3, 0, 0];

const ANY: [u64; 4] = [0, 1, 2, 3];
const EPSILON: u64 = 0x3CB0_0000_0000_0000;

impl Builder<'_> {
    pub fn row(&mut self) {
        self.row_of(Self::tried);
    }

    /// NOP where the program has no region that the rows tried need.
    pub fn row_of(&mut self, tried: fn(&mut Self) -> Option<[u64; 9]>) {
        let row = (0..4).find_map(|_| tried(self)).unwrap_or(NOP);
        self.tables.instructions.extend(row);
    }

    fn tried(&mut self) -> Option<[u64; 9]> {
        match self.random.below(46) {
            _ if !self.labels.is_empty() && self.random.chance(35) => self.flow(),
            0..=4 => self.arithmetic(),
            5..=8 => self.comparison(),
            9..=13 => self.logic(),
            14..=16 => self.unary(),
            17..=21 => self.move_(),
            22..=24 => self.exchange(),
            25..=27 => self.load(),
            28..=30 => self.store(),
            31..=34 => Some(self.frame()),
            35..=40 => self.call(),
            41..=44 => self.convert(),
            _ if self.careful() => Some(NOP),
            _ => Some([10, 1, 0, 0, 0, 0, 3, 0, 0]),
        }
    }

    /// Name and index of a cell, and its region's kind.
    pub fn cell(&mut self, kinds: &[u64]) -> Option<([u64; 2], u64)> {
        let [name, kind, length] = self.region(kinds)?;
        Some(([name, self.index(length)], kind))
    }

    /// A source's form and two words: a literal that the type check takes for the kind, or a cell of one of these kinds.
    fn source(&mut self, kind: u64, kinds: &[u64]) -> Option<[u64; 3]> {
        if self.random.chance(50) {
            let ([name, index], _) = self.cell(kinds)?;
            return Some([2, name, index]);
        }
        let form = match self.careful() {
            true => u64::from(kind == 3),
            false => self.random.below(2),
        };
        Some([form, self.literal(form), 0])
    }

    /// What MOVE and STORE put into a cell of that kind.
    fn copied(&mut self, kind: u64) -> Option<[u64; 3]> {
        match self.source(kind, &[kind])? {
            [0, ..] => Some([0, values::literal(self.random, kind), 0]),
            source => Some(source),
        }
    }

    fn arithmetic(&mut self) -> Option<[u64; 9]> {
        let ([name, index], kind) = self.cell(&[1, 3])?;
        let [form, a, b] = self.source(kind, &[kind])?;
        Some([0, self.random.below(4), name, index, 0, 0, form, a, b])
    }

    fn comparison(&mut self) -> Option<[u64; 9]> {
        let ([name, index], _) = self.cell(&[0])?;
        let ([lhs, place], kind) = self.cell(&ANY)?;
        let [form, a, b] = self.source(kind, &[kind])?;
        Some([1, self.random.below(5), name, index, lhs, place, form, a, b])
    }

    fn logic(&mut self) -> Option<[u64; 9]> {
        let ([name, index], _) = self.cell(&[0, 1, 2])?;
        let [form, a, b] = match self.source(0, &[0, 1, 2])? {
            // Logic has no real literal.
            [1, bits, _] => [0, bits, 0],
            source => source,
        };
        Some([2, self.random.below(6), name, index, 0, 0, form, a, b])
    }

    fn unary(&mut self) -> Option<[u64; 9]> {
        let operator = self.random.below(2);
        let kinds: &[u64] = if operator == 0 { &[1, 3] } else { &[0, 1, 2] };
        let ([name, index], _) = self.cell(kinds)?;
        Some([3, operator, name, index, 0, 0, 3, 0, 0])
    }

    fn move_(&mut self) -> Option<[u64; 9]> {
        let ([name, index], kind) = self.cell(&ANY)?;
        let [form, a, b] = self.copied(kind)?;
        Some([4, 0, name, index, 0, 0, form, a, b])
    }

    fn exchange(&mut self) -> Option<[u64; 9]> {
        let ([first, i], kind) = self.cell(&ANY)?;
        let ([second, j], _) = self.cell(&[kind])?;
        Some([5, 0, first, i, second, j, 3, 0, 0])
    }

    fn load(&mut self) -> Option<[u64; 9]> {
        let ([name, index], kind) = self.cell(&ANY)?;
        let [source, ..] = self.region(&[kind])?;
        let ([offset, place], _) = self.cell(&[1])?;
        Some([6, 0, name, index, source, 0, 2, offset, place])
    }

    fn store(&mut self) -> Option<[u64; 9]> {
        let [name, kind, _] = self.region(&ANY)?;
        let ([offset, place], _) = self.cell(&[1])?;
        let [form, a, b] = self.copied(kind)?;
        Some([7, 0, name, 0, offset, place, form, a, b])
    }

    fn convert(&mut self) -> Option<[u64; 9]> {
        let [to, from] = self.random.pick(&[[1, 3], [3, 1]]);
        let ([name, index], _) = self.cell(&[to])?;
        let ([source, place], _) = self.cell(&[from])?;
        Some([16, 0, name, index, 0, 0, 2, source, place])
    }

    fn frame(&mut self) -> [u64; 9] {
        let first = self.tables.nodes.len() / 3;
        let most = 1 + self.random.size(12);
        let mut wanted = 1;
        let mut count = 0;
        while wanted > 0 {
            let node = match self.random.below(4) {
                0..=1 if count + wanted + 1 < most => [2, 0, 0],
                2 if count + wanted < most => [self.random.pick(&[1, 5]), 0, 0],
                _ => self.leaf(),
            };
            wanted = match node[0] {
                1 | 5 => wanted,
                2 => wanted + 1,
                _ => wanted - 1,
            };
            count += 1;
            self.tables.nodes.extend(node);
        }
        [8, self.random.below(5), first as u64, count as u64, 0, 0, 3, 0, 0]
    }

    fn leaf(&mut self) -> [u64; 3] {
        match (self.random.below(3), self.region(&[3])) {
            (0, Some([name, _, length])) => [0, name, self.index(length)],
            (1, _) if self.careful() => {
                [3, self.literal(1), self.random.pick(&[0, EPSILON, EPSILON + (1 << 63), f64::NAN.to_bits()])]
            }
            (1, _) => [3, self.literal(1), self.random.pick(&[EPSILON + 1, f64::INFINITY.to_bits()])],
            (2, _) if !self.careful() => [6, self.random.below(9), 0],
            _ => [4, 0, 0],
        }
    }
}
