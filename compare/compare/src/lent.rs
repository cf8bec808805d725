//! Lent buffers, with words beside them that are watched.
use tables::{blank, blanks};

/// Words on either side of a lent buffer that no call may touch.
const GUARD: usize = 4;

pub struct Lent {
    words: Vec<u64>,
}

impl Lent {
    pub fn new(length: usize) -> Self {
        let mut words = blanks(GUARD);
        words.extend(blanks(length));
        words.extend(blanks(GUARD));
        Lent { words }
    }

    pub fn buffer(&mut self) -> &mut [u64] {
        let length = self.words.len() - 2 * GUARD;
        &mut self.words[GUARD..][..length]
    }

    /// The buffer, or nothing if a word beside it changed.
    pub fn taken_back(self) -> Option<Vec<u64>> {
        let length = self.words.len() - 2 * GUARD;
        let kept = |part: &[u64]| part.iter().enumerate().all(|(i, &word)| word == blank(i));
        if kept(&self.words[..GUARD]) && kept(&self.words[GUARD + length..]) {
            return Some(self.words[GUARD..][..length].to_vec());
        }
        None
    }
}

/// An out-array before a call.
pub fn blanks_array<const N: usize>() -> [u64; N] {
    let mut words = [0; N];
    words.iter_mut().enumerate().for_each(|(i, word)| *word = blank(i));
    words
}
