//! Call lists through an unproved copy against the plain machine.
fn main() {
    call_lists::main(Box::new(unproved::Unproved));
}
