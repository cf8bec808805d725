//! The comparison of an unproved copy with quil-rs.
fn main() {
    comparison::main(Box::new(unproved::Unproved));
}
