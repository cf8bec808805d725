//! Call lists through the proved library against the plain machine.
fn main() {
    call_lists::main(Box::new(library::Proved));
}
