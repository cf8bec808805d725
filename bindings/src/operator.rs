coded! {
    /// An operator of family 0.
    ArithmeticOperator {
        0 Add "ADD",
        1 Subtract "SUB",
        2 Divide "DIV",
        3 Multiply "MUL",
    }
}

coded! {
    /// An operator of family 1.
    ComparisonOperator {
        0 Equal "EQ",
        1 GreaterThanOrEqual "GE",
        2 GreaterThan "GT",
        3 LessThanOrEqual "LE",
        4 LessThan "LT",
    }
}

coded! {
    /// An operator of family 2.
    BinaryOperator {
        0 And "AND",
        1 Ior "IOR",
        2 Xor "XOR",
        3 Shl "SHL",
        4 Shr "SHR",
        5 Ashr "ASHR",
    }
}

coded! {
    /// An operator of family 3.
    UnaryOperator {
        0 Neg "NEG",
        1 Not "NOT",
    }
}

coded! {
    /// An operator of family 8.
    FrameOperator {
        0 SetFrequency "SET-FREQUENCY",
        1 SetPhase "SET-PHASE",
        2 SetScale "SET-SCALE",
        3 ShiftFrequency "SHIFT-FREQUENCY",
        4 ShiftPhase "SHIFT-PHASE",
    }
}
