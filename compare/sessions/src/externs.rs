//! Externs whose signatures the program's regions can meet, and CALL rows.
use crate::programs::Builder;
use tables::{ARGUMENT, NO_RETURN, PARAMETER};

impl Builder<'_> {
    pub fn externs(&mut self, count: usize) {
        for name in self.names(count) {
            let first = (self.tables.parameters.len() / PARAMETER) as u64;
            let parameters = self.random.below(5);
            (0..parameters).for_each(|_| self.parameter());
            let returned = match self.region(&[0, 1, 2, 3]) {
                Some([_, kind, _]) if self.random.chance(50) => kind,
                _ => NO_RETURN,
            };
            self.tables.externs.extend([name, returned, first, parameters]);
        }
    }

    fn parameter(&mut self) {
        let [_, kind, length] = self.region(&[0, 1, 2, 3]).unwrap_or([0, 1, 1]);
        let shape = self.random.below(3);
        let length = if shape == 1 { length } else { 0 };
        self.tables.parameters.extend([self.random.below(9), self.random.below(2), shape, kind, length]);
    }

    pub fn call(&mut self) -> Option<[u64; 9]> {
        let externs: Vec<Vec<u64>> = self.tables.externs().map(|e| e.to_vec()).collect();
        let called = self.random.choose(&externs)?;
        let first = self.tables.arguments.len();
        if called[1] != NO_RETURN {
            let argument = self.scalar(called[1])?;
            self.tables.arguments.extend(argument);
        }
        let parameters: Vec<Vec<u64>> =
            self.tables.parameters_of(called[2], called[3]).chunks(PARAMETER).map(|p| p.to_vec()).collect();
        for parameter in parameters {
            match self.argument(&parameter) {
                Some(argument) => self.tables.arguments.extend(argument),
                None => {
                    self.tables.arguments.truncate(first);
                    return None;
                }
            }
        }
        if !self.careful() {
            self.tables.arguments.extend([1, 0, 0]);
        }
        let count = (self.tables.arguments.len() - first) / ARGUMENT;
        let name = if self.careful() { called[0] } else { 99 };
        Some([9, 0, name, (first / ARGUMENT) as u64, count as u64, 0, 3, 0, 0])
    }

    fn argument(&mut self, parameter: &[u64]) -> Option<[u64; 3]> {
        let (mutable, shape, kind, length) = (parameter[1], parameter[2], parameter[3], parameter[4]);
        if !self.careful() {
            return Some([self.random.pick(&[1, 2]), self.random.below(5), self.random.below(3)]);
        }
        match shape {
            0 if mutable == 0 && self.random.chance(30) => Some([2, self.literal(1), self.literal(1)]),
            0 => self.scalar(kind),
            _ => {
                let fits = |r: &&[u64]| r[1] == kind && (shape == 2 || r[2] == length);
                let names: Vec<u64> = self.tables.regions().filter(fits).map(|r| r[0]).collect();
                Some([0, *self.random.choose(&names)?, 0])
            }
        }
    }

    /// An identifier or a reference.
    fn scalar(&mut self, kind: u64) -> Option<[u64; 3]> {
        let [name, _, length] = self.region(&[kind])?;
        match self.random.below(2) {
            0 => Some([0, name, 0]),
            _ => Some([1, name, self.index(length)]),
        }
    }
}
