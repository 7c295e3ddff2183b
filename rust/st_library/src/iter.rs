//! Lists of what an iterator gives.

/// Rust's own.
pub use std::iter::FusedIterator;

use crate::alloc::{AllocError, Global};
use crate::vec::Vec;

/// Their `collect` takes an allocator. Rust's takes nothing, so here it has another name.
pub trait CollectIn: Iterator + Sized {
    /// All that the iterator gives, in order.
    fn collect_in<C: FromIteratorIn<Self::Item>>(self, alloc: Global) -> Result<C, C::Error> {
        C::from_iter_in(self, alloc)
    }
}

impl<I: Iterator> CollectIn for I {}

/// A collection that `collect_in` makes.
pub trait FromIteratorIn<T>: Sized {
    /// Why it can't be made.
    type Error;

    /// All that the iterator gives, in order.
    fn from_iter_in<I: Iterator<Item = T>>(items: I, alloc: Global) -> Result<Self, Self::Error>;
}

impl<T> FromIteratorIn<T> for Vec<T> {
    type Error = AllocError;

    fn from_iter_in<I: Iterator<Item = T>>(items: I, alloc: Global) -> Result<Vec<T>, AllocError> {
        let mut all = Vec::with_capacity(alloc, items.size_hint().0)?;
        for item in items {
            all.push(item)?;
        }
        Ok(all)
    }
}
