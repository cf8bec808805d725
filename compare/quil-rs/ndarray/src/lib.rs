//! Stand-in for ndarray: the type of a unitary, with nothing in it.
use std::marker::PhantomData;

#[derive(Clone, Debug, PartialEq)]
pub struct Array2<T>(PhantomData<T>);

impl<T> Array2<T> {
    pub fn eye(_: usize) -> Self {
        Array2(PhantomData)
    }

    pub fn dot(&self, _: &Self) -> Self {
        Array2(PhantomData)
    }
}
