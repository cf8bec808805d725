//! Stand-in: control flow analysis takes no part.
