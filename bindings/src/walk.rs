use crate::{raw, Refusal};
use core::{fmt, iter::FusedIterator, slice};

/// A cell, by its region's name and its index there.
#[derive(Clone, Copy, Debug, PartialEq, Eq)]
pub struct MemoryReference {
    /// The region's name.
    pub name: u64,
    /// The cell in it, from 0.
    pub index: u64,
}

/// A walk over expressions, with room of its own for the references of any one: 16 KB, which is not cleared. Each
/// expression is one call of the library.
///
/// ```
/// use mugwortlatch::{flattened, MemoryReference, Node, Refusal, Walk};
///
/// // -n[1] * n[2]
/// let n = |index| MemoryReference { name: 1, index };
/// let nodes = [Node::Infix, Node::Prefix, Node::Address(n(1)), Node::Address(n(2))].map(Node::row);
/// let mut walk = Walk::new();
/// assert!(walk.memory_references(flattened(&nodes), 0, 4)?.eq([n(1), n(2)]));
/// # Ok::<(), Refusal>(())
/// ```
pub struct Walk(raw::ReferenceRows);

/// The references of one expression, left to right, repeats kept.
#[derive(Clone, Debug)]
pub struct MemoryReferences<'w>(slice::Iter<'w, raw::ReferenceRow>);

impl Walk {
    /// A walk that has been nowhere.
    #[inline]
    pub const fn new() -> Walk {
        Walk(raw::ReferenceRows::new())
    }

    /// The references of the tree of `count` nodes from row `first` on. Refusals in order: 1, 2.
    #[inline]
    pub fn memory_references(
        &mut self,
        nodes: &[u64],
        first: u64,
        count: u64,
    ) -> Result<MemoryReferences<'_>, Refusal> {
        match self.0.filled(nodes, first, count) {
            Ok(rows) => Ok(MemoryReferences(rows.iter())),
            Err(number) => Err(Refusal::of_number(number)),
        }
    }
}

impl Default for Walk {
    fn default() -> Walk {
        Walk::new()
    }
}

impl fmt::Debug for Walk {
    fn fmt(&self, f: &mut fmt::Formatter<'_>) -> fmt::Result {
        f.write_str("Walk")
    }
}

impl Iterator for MemoryReferences<'_> {
    type Item = MemoryReference;

    #[inline]
    fn next(&mut self) -> Option<MemoryReference> {
        self.0.next().map(|&[name, index]| MemoryReference { name, index })
    }

    #[inline]
    fn size_hint(&self) -> (usize, Option<usize>) {
        self.0.size_hint()
    }
}

impl ExactSizeIterator for MemoryReferences<'_> {}

impl FusedIterator for MemoryReferences<'_> {}

impl fmt::Display for MemoryReference {
    fn fmt(&self, f: &mut fmt::Formatter<'_>) -> fmt::Result {
        write!(f, "name {}[{}]", self.name, self.index)
    }
}
