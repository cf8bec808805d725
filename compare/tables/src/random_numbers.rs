//! Random numbers by a seed: splitmix64, the same on every machine.

#[derive(Clone)]
pub struct Random(u64);

impl Random {
    pub fn new(seed: u64) -> Self {
        Random(seed)
    }

    pub fn word(&mut self) -> u64 {
        self.0 = self.0.wrapping_add(0x9E37_79B9_7F4A_7C15);
        let z = (self.0 ^ (self.0 >> 30)).wrapping_mul(0xBF58_476D_1CE4_E5B9);
        let z = (z ^ (z >> 27)).wrapping_mul(0x94D0_49BB_1331_11EB);
        z ^ (z >> 31)
    }

    /// Below `bound`, which is not 0.
    pub fn below(&mut self, bound: u64) -> u64 {
        self.word() % bound
    }

    pub fn size(&mut self, bound: usize) -> usize {
        self.below(bound as u64) as usize
    }

    pub fn chance(&mut self, percent: u64) -> bool {
        self.below(100) < percent
    }

    pub fn choose<'a, T>(&mut self, list: &'a [T]) -> Option<&'a T> {
        if list.is_empty() {
            return None;
        }
        let i = self.size(list.len());
        list.get(i)
    }

    pub fn pick<T: Copy>(&mut self, list: &[T]) -> T {
        list[self.size(list.len())]
    }
    /// An integer halfway between two binary64, or one beside it.
    pub fn halfway(&mut self) -> u64 {
        let middle = 2 * (1 << 52 | self.word() >> 12) + 1;
        (middle << self.below(11)).wrapping_add(self.below(3)).wrapping_sub(1)
    }
}
