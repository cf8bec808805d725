coded! {
    /// The kind of a region, a cell or a parameter.
    Kind {
        0 Bit "BIT",
        1 Integer "INTEGER",
        2 Octet "OCTET",
        3 Real "REAL",
    }
}
