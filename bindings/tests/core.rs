//! Names and numbers are the core's, whose sources have them as constants, of refusals as an enum's cases, and those of console.h.
use mugwortlatch::{
    sizes, ArithmeticOperator, BinaryOperator, Code, ComparisonOperator, FrameOperator, Kind, Refusal, UnaryOperator,
};
use std::fmt::Debug;

macro_rules! source {
    ($path:literal) => {
        include_str!(concat!("../../crates/", $path))
    };
}

const HEADER: &str = source!("console_c/console.h");

/// These sizes stand in that source and in the header.
macro_rules! sizes_in {
    ($path:literal: $($name:ident)*) => {
        $(
            let line = format!("pub const {}: usize = {};\n", stringify!($name), sizes::$name);
            assert!(source!($path).contains(&line), "{line}");
            defined(stringify!($name), sizes::$name);
        )*
    };
}

/// Every word of the range has a case, which that source and, after that prefix, the header name.
macro_rules! cases_in {
    ($path:literal, $prefix:literal: $($type:ident in $words:expr),*) => {
        $($words.for_each(|word| stands(source!($path), $prefix, &$type::of_word(word), word));)*
    };
}

fn defined(name: &str, size: usize) {
    let line = format!("#define CONSOLE_{name} {size}\n");
    assert!(HEADER.contains(&line), "{line}");
}

fn stands(source: &str, prefix: &str, case: &dyn Debug, word: u64) {
    let name = constant(&format!("{case:?}"));
    let line = format!("pub const {name}: u64 = {word};\n");
    assert!(source.contains(&line), "{line}");
    listed(prefix, &name, word);
}

fn listed(prefix: &str, name: &str, word: u64) {
    let entry = format!("CONSOLE_{prefix}_{name} = {word}");
    assert!([",", " ", "\n"].iter().any(|end| HEADER.contains(&format!("{entry}{end}"))), "{entry}");
}

/// `AsHere` as `AS_HERE`.
fn constant(case: &str) -> String {
    let mut name = String::new();
    for letter in case.chars() {
        if letter.is_uppercase() && !name.is_empty() {
            name.push('_');
        }
        name.extend(letter.to_uppercase());
    }
    name
}

#[test]
fn sizes_of_rows() {
    sizes_in!("tables/src/rows.rt": REGION_WIDTH EXTERN_WIDTH PARAMETER_WIDTH);
    sizes_in!("tables/src/rows.rt": NODE_WIDTH ARGUMENT_WIDTH INSTRUCTION_WIDTH);
    sizes_in!("tables/src/rows.rt": REGION_LIMIT EXTERN_LIMIT PARAMETER_LIMIT);
    sizes_in!("tables/src/rows.rt": NODE_LIMIT ARGUMENT_LIMIT INSTRUCTION_LIMIT);
    sizes_in!("tables/src/cells.rt": CELL_LIMIT);
    sizes_in!("journal/src/cells.rt": CELL_WIDTH);
    sizes_in!("journal/src/entries.rt": ENTRY_WIDTH ENTRY_LIMIT);
    sizes_in!("call_reply/src/reply.rt": REPLY_WIDTH REPLY_LIMIT);
    sizes_in!("extern_call/src/rows.rt": RESOLVED_WIDTH ERROR_WIDTH);
    sizes_in!("memory/src/batch.rt": REFERENCE_WIDTH);
    defined("REFERENCE_LIMIT", sizes::REFERENCE_LIMIT);
}

#[test]
fn words_of_cases() {
    cases_in!("words/src/kind.rt", "KIND": Kind in 0..4);
    cases_in!("words/src/kind.rt", "CODE": Code in 4..6);
    cases_in!("type_rules/src/code.rt", "CODE": Code in 6..12);
    cases_in!("tables/src/operator.rt", "OPERATOR": ArithmeticOperator in 0..4, ComparisonOperator in 0..5);
    cases_in!("tables/src/operator.rt", "OPERATOR": BinaryOperator in 0..6, UnaryOperator in 0..2);
    cases_in!("tables/src/operator.rt", "OPERATOR": FrameOperator in 0..5);
    (0..4).for_each(|word| assert_eq!(Kind::of_word(word).to_string(), Code::of_word(word).to_string()));
}

#[test]
fn numbers_of_refusals() {
    use Refusal::*;
    let refusals = [
        TableShape,
        WordNotAllowed,
        NameTwice,
        BufferSize,
        ExternNotFound,
        ArgumentCount,
        ArgumentErrors,
        OtherInstruction,
        TooManyCells,
        AtEnd,
        NothingToTakeBack,
        JournalFull,
        IndexPastLength,
        ZeroDivisor,
        NegativeShiftCount,
        UnfitReply,
        NoRule,
        ForeignPosition,
        UnfitLabels,
        ConditionNotBit,
        UnfitConversion,
        OutsideInteger,
        UnfitLiteral,
    ];
    // A cause of more than a line is strings one after another in C.
    let header: String = HEADER.split('"').filter(|part| !part.trim().is_empty() || !part.contains('\n')).collect();
    for refusal in refusals {
        let line = format!("    {refusal:?} = {},\n", refusal.number());
        assert!(source!("tables/src/refusal.rt").contains(&line), "{line}");
        let name = constant(&format!("{refusal:?}"));
        listed("REFUSAL", &name, refusal.number());
        let told = format!("case CONSOLE_REFUSAL_{name}:\n        return {};\n", refusal.cause());
        assert!(header.contains(&told), "{told}");
    }
}
