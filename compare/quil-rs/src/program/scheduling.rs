//! Stand-in: scheduling takes no part.
