//! Conversions by an unproved copy, judged outside.
fn main() {
    converted_words::main(Box::new(unproved::Unproved));
}
