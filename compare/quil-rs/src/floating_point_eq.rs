//! Stand-in: equality and hash of floats by their bits. No kept answer asks either.
pub mod f64 {
    use std::hash::{Hash, Hasher};

    pub fn eq(left: f64, right: f64) -> bool {
        left.to_bits() == right.to_bits()
    }

    pub fn hash<H: Hasher>(value: f64, state: &mut H) {
        value.to_bits().hash(state)
    }
}

pub mod complex64 {
    use num_complex::Complex64;
    use std::hash::Hasher;

    pub fn eq(left: Complex64, right: Complex64) -> bool {
        super::f64::eq(left.re, right.re) && super::f64::eq(left.im, right.im)
    }

    pub fn hash<H: Hasher>(value: Complex64, state: &mut H) {
        super::f64::hash(value.re, state);
        super::f64::hash(value.im, state);
    }
}
