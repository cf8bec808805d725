//! A question about a program, and what a call on lent buffers leaves behind.

#[derive(Clone, Copy, Debug, PartialEq)]
pub enum Query {
    Check,
    /// A frame's row. Of the two out-arrays the count is `out`, the type error stands in `lent`.
    Frame {
        row: u64,
    },
    /// The CALL's row, and the lent buffer's length.
    Resolve {
        row: u64,
        room: usize,
    },
    /// The CALL's row, and the lists' lengths.
    Access {
        row: u64,
        room: [usize; 2],
    },
    /// A tree's first node and node count: all its references, then the end, asked twice.
    References {
        first: u64,
        count: u64,
    },
}

/// The number, the out-array at exit and every lent buffer at exit.
#[derive(Clone, Debug, PartialEq)]
pub struct Answer {
    pub number: u64,
    pub out: Vec<u64>,
    pub lent: Vec<Vec<u64>>,
}

/// What lent word i holds before a call.
pub fn blank(i: usize) -> u64 {
    0x5EED_0000_0000_0000 + i as u64
}

pub fn blanks(length: usize) -> Vec<u64> {
    (0..length).map(blank).collect()
}

impl Answer {
    /// An out-array and buffers as they were lent.
    pub fn untouched(number: u64, out: usize, lent: &[usize]) -> Self {
        Answer { number, out: blanks(out), lent: lent.iter().map(|&length| blanks(length)).collect() }
    }
}

impl Query {
    pub fn name(&self) -> &'static str {
        match self {
            Query::Check => "check",
            Query::Frame { .. } => "frame",
            Query::Resolve { .. } => "resolve",
            Query::Access { .. } => "access",
            Query::References { .. } => "memory_references",
        }
    }
}
