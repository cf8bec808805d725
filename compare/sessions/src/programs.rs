//! Programs by chance that mostly pass the type check and run.
use crate::values;
use tables::{random_numbers::Random, Tables, ARGUMENT, EXTERN, INSTRUCTION, NODE, NO_RETURN, PARAMETER};

const CELLS: u64 = 4096;

/// Names that are likely to be confused, and their neighbours.
const NAMES: [u64; 8] = [0, 1, 2, 3, (1 << 63) - 1, 1 << 63, u64::MAX - 1, u64::MAX];

pub struct Builder<'a> {
    pub random: &'a mut Random,
    pub tables: Tables,
    /// How likely a part is chosen as the rules want it, in percent.
    pub care: u64,
    /// What jumps go to; their rows are put last.
    pub labels: Vec<u64>,
}

pub fn program(random: &mut Random) -> Tables {
    let care = random.pick(&[100, 100, 100, 100, 98, 80]);
    let mut builder = Builder { random, tables: Tables::default(), care, labels: Vec::new() };
    builder.labels();
    match builder.random.below(100) {
        0 => builder.at_the_limits(),
        1 => builder.wide(),
        2..=5 => builder.calls(),
        6..=13 => builder.counted_loop(),
        _ => builder.small(),
    }
    builder.tables
}

impl Builder<'_> {
    pub fn careful(&mut self) -> bool {
        self.random.chance(self.care)
    }

    fn small(&mut self) {
        let count = self.random.pick(&[0, 1, 2, 4, 4, 5, 5, 6, 6, 7]);
        let lengths: Vec<u64> = (0..count).map(|_| self.random.pick(&[0, 1, 1, 2, 2, 2, 3, 3, 5, 8])).collect();
        self.regions(&lengths);
        let externs = self.random.size(4);
        self.externs(externs);
        let most = self.random.pick(&[4, 20, 40, 80]);
        (0..self.random.size(most)).for_each(|_| self.row());
        self.put_labels();
    }

    /// Mostly CALLs, as many as the longest journal is enough for and more. Each returns something, so that a reply
    /// has a cell to write.
    fn calls(&mut self) {
        let lengths: Vec<u64> = (0..4).map(|_| 1 + self.random.below(3)).collect();
        self.regions(&lengths);
        self.externs(3);
        let kinds: Vec<u64> = self.tables.regions().map(|r| r[1]).collect();
        for called in self.tables.externs.chunks_exact_mut(EXTERN).filter(|called| called[1] == NO_RETURN) {
            called[1] = self.random.pick(&kinds);
        }
        let most = self.random.pick(&[4, 16, 36, 36, 60]);
        for _ in 0..self.random.size(most) {
            match self.random.below(8) {
                0 => self.row(),
                _ => self.row_of(Self::call),
            }
        }
        self.put_labels();
    }

    /// Exactly as many cells as a machine can have, in few regions.
    fn wide(&mut self) {
        let mut lengths = vec![CELLS];
        for _ in 0..self.random.size(6) {
            let last = lengths.pop().unwrap_or(0);
            let cut = self.random.below(last + 1);
            lengths.extend([cut, last - cut]);
        }
        self.regions(&lengths);
        self.externs(2);
        (0..self.random.size(16)).for_each(|_| self.row());
        self.put_labels();
    }

    /// Every table as long as it may be; the rows past those that are used are there for the loader alone.
    fn at_the_limits(&mut self) {
        let lengths: Vec<u64> = (0..64).map(|_| self.random.below(5)).collect();
        self.regions(&lengths);
        self.externs(32);
        let room = 512 - 2 * self.labels.len();
        while self.tables.instructions.len() < room * INSTRUCTION {
            let nodes = 2048 - self.tables.nodes.len() / NODE;
            let arguments = 1024 - self.tables.arguments.len() / ARGUMENT;
            match nodes.min(arguments) {
                0..=16 => self.tables.instructions.extend(crate::rows::NOP),
                _ => self.row(),
            }
        }
        self.put_labels();
        fill(&mut self.tables.instructions, 512 * INSTRUCTION, &crate::rows::NOP);
        fill(&mut self.tables.parameters, 256 * PARAMETER, &[7, 1, 2, 3, 0]);
        fill(&mut self.tables.nodes, 2048 * NODE, &[4, 0, 0]);
        fill(&mut self.tables.arguments, 1024 * ARGUMENT, &[2, 5, 6]);
    }

    pub fn regions(&mut self, lengths: &[u64]) {
        // Mostly all kinds; INTEGER is needed for offsets.
        let mixed = self.random.chance(80);
        let shift = self.random.size(4);
        for (i, (name, length)) in self.names(lengths.len()).into_iter().zip(lengths).enumerate() {
            let kind = if mixed { ((i + shift) % 4) as u64 } else { self.random.below(4) };
            self.tables.regions.extend([name, kind, *length]);
        }
    }

    /// Distinct names.
    pub fn names(&mut self, count: usize) -> Vec<u64> {
        let mut names: Vec<u64> = Vec::new();
        while names.len() < count {
            let name = if self.random.chance(30) { self.random.pick(&NAMES) } else { self.random.below(200) };
            if !names.contains(&name) {
                names.push(name);
            }
        }
        names
    }

    /// A region's name, kind and length: of one of these kinds, mostly with cells. Without care any region, or one
    /// that is not declared.
    pub fn region(&mut self, kinds: &[u64]) -> Option<[u64; 3]> {
        let mut regions: Vec<[u64; 3]> = self.tables.regions().map(|r| [r[0], r[1], r[2]]).collect();
        if !self.careful() {
            regions.push([self.random.pick(&[4, 5, 77]), self.random.below(4), 1]);
            return self.random.choose(&regions).copied();
        }
        regions.retain(|r| kinds.contains(&r[1]));
        let filled: Vec<[u64; 3]> = regions.iter().filter(|r| r[2] > 0).copied().collect();
        match self.random.chance(98) && !filled.is_empty() {
            true => self.random.choose(&filled).copied(),
            false => self.random.choose(&regions).copied(),
        }
    }

    /// Mostly below the length.
    pub fn index(&mut self, length: u64) -> u64 {
        match length > 0 && self.random.chance(99) {
            true => self.random.below(length),
            false => self.random.pick(&[length, length, length + 1, 1 << 63, u64::MAX]),
        }
    }

    /// Literal bits, integer or real.
    pub fn literal(&mut self, form: u64) -> u64 {
        match form {
            0 => values::integer(self.random),
            _ => values::real(self.random),
        }
    }
}

fn fill(table: &mut Vec<u64>, length: usize, row: &[u64]) {
    while table.len() < length {
        table.extend(row);
    }
}
