use crate::{raw, Refusal, Tables, TypeError};
use core::fmt;

/// Why a frame does not pass.
#[derive(Clone, Copy, Debug, PartialEq, Eq)]
pub enum FrameRefusal {
    /// Refusal 5, at the first node that fails.
    Error {
        /// What [`check`](crate::check) tells where this row is the first bad one.
        error: TypeError,
        /// How many nodes were looked at: the failing one's place in its tree plus 1.
        looked: u64,
    },
    /// Any other refusal.
    Refused(Refusal),
}

/// The type check of the frame in that row, whatever type errors other rows have. It ends at the first node that fails;
/// where none does it gives how many nodes it looked at: all of the frame's. Refusals in order: 1, 2, 3, 5.
///
/// ```
/// use mugwortlatch::{flattened, frame, FrameOperator, Instruction, Node, Tables};
///
/// // SET-PHASE 0 "xy" pi/2
/// let nodes = [Node::Infix, Node::Pi, Node::Number(2.0, 0.0)].map(Node::row);
/// let row = Instruction::Frame { operator: FrameOperator::SetPhase, first_node: 0, node_count: 3 }.row();
/// let tables = Tables { nodes: flattened(&nodes), instructions: &row, ..Tables::default() };
/// assert_eq!(frame(&tables, 0), Ok(3));
/// ```
pub fn frame(tables: &Tables, row: u64) -> Result<u64, FrameRefusal> {
    let (mut looked, mut error) = ([0], [0; 6]);
    match raw::frame(tables, row, &mut looked, &mut error) {
        0 => Ok(looked[0]),
        5 => Err(FrameRefusal::Error { error: TypeError::of_words(error), looked: looked[0] }),
        number => Err(FrameRefusal::Refused(Refusal::of_number(number))),
    }
}

impl FrameRefusal {
    /// The refusal alone.
    pub fn refusal(&self) -> Refusal {
        match *self {
            FrameRefusal::Error { error, .. } => Refusal::TypeError(error),
            FrameRefusal::Refused(refusal) => refusal,
        }
    }
}

impl From<FrameRefusal> for Refusal {
    fn from(refused: FrameRefusal) -> Refusal {
        refused.refusal()
    }
}

impl fmt::Display for FrameRefusal {
    fn fmt(&self, f: &mut fmt::Formatter<'_>) -> fmt::Result {
        write!(f, "{}", self.refusal())?;
        match self {
            FrameRefusal::Error { looked, .. } => write!(f, "; nodes looked at: {looked}"),
            FrameRefusal::Refused(_) => Ok(()),
        }
    }
}
