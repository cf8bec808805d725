//! Conversions by the proved library, judged outside.
fn main() {
    converted_words::main(Box::new(library::Proved));
}
