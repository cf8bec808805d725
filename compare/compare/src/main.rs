//! The comparison of the proved library with quil-rs.
fn main() {
    comparison::main(Box::new(library::Proved));
}
