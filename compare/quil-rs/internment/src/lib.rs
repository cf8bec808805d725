//! Stand-in for internment: a shared pointer without the table of known values.
//! Equality is the value's own; no kept answer asks it.
use std::{ops::Deref, sync::Arc};

#[derive(Clone, Debug, PartialEq, Eq, Hash)]
pub struct ArcIntern<T>(Arc<T>);

impl<T> ArcIntern<T> {
    pub fn new(value: T) -> Self {
        ArcIntern(Arc::new(value))
    }
}

impl<T> From<T> for ArcIntern<T> {
    fn from(value: T) -> Self {
        ArcIntern::new(value)
    }
}

impl<T> Deref for ArcIntern<T> {
    type Target = T;

    fn deref(&self) -> &T {
        &self.0
    }
}
