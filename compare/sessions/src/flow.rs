//! Labels, jumps and HALT among a program's rows, and loops that are counted.
use crate::programs::Builder;
use tables::INSTRUCTION;

const HALT: [u64; 9] = [15, 0, 0, 0, 0, 0, 3, 0, 0];

fn label(name: u64) -> [u64; 9] {
    [14, 0, 0, 0, name, 0, 3, 0, 0]
}

impl Builder<'_> {
    /// The labels that the program's jumps go to; in half of the programs none.
    pub fn labels(&mut self) {
        let count = self.random.pick(&[0, 0, 0, 0, 0, 1, 1, 1, 2, 4]);
        self.labels = self.names(count);
    }

    /// Each label's row somewhere; without care none or two.
    pub fn put_labels(&mut self) {
        for name in std::mem::take(&mut self.labels) {
            let rows = if self.careful() { 1 } else { self.random.pick(&[0, 2]) };
            for _ in 0..rows {
                let at = INSTRUCTION * self.random.size(self.tables.instructions.len() / INSTRUCTION + 1);
                self.tables.instructions.splice(at..at, label(name));
            }
        }
    }

    /// A jump to one of the labels, or HALT.
    pub fn flow(&mut self) -> Option<[u64; 9]> {
        let family = self.random.pick(&[11, 12, 12, 12, 13, 13, 13, 15]);
        if family == 15 {
            return Some(HALT);
        }
        let label = match self.careful() {
            true => *self.random.choose(&self.labels)?,
            false => 77,
        };
        let [name, index] = match family {
            11 => [0, 0],
            _ => self.cell(&[0])?.0,
        };
        Some([family, 0, name, index, label, 0, 3, 0, 0])
    }

    /// A cell counted down from a small number, with rows of any family inside, and some after it.
    pub fn counted_loop(&mut self) {
        let lengths: Vec<u64> = (0..6).map(|_| 1 + self.random.below(3)).collect();
        self.regions(&lengths);
        self.externs(2);
        let name = 1000 + self.random.below(9);
        let [Some(([counter, i], _)), Some(([flag, j], _))] = [self.cell(&[1]), self.cell(&[0])] else {
            return;
        };
        let from = self.random.below(6);
        self.tables.instructions.extend([4, 0, counter, i, 0, 0, 0, from, 0]);
        self.tables.instructions.extend(label(name));
        (0..self.random.size(5)).for_each(|_| self.row());
        // SUB; GT and JUMP-WHEN, or LE and JUMP-UNLESS.
        let [operator, family] = self.random.pick(&[[2, 12], [3, 13]]);
        self.tables.instructions.extend([0, 1, counter, i, 0, 0, 0, 1, 0]);
        self.tables.instructions.extend([1, operator, flag, j, counter, i, 0, 0, 0]);
        self.tables.instructions.extend([family, 0, flag, j, name, 0, 3, 0, 0]);
        (0..self.random.size(4)).for_each(|_| self.row());
        self.put_labels();
    }
}
