//! Values under keys that are used again.

use crate::alloc::{AllocError, Global};
use std::ops::{Index, IndexMut};

/// Values under keys, the same as theirs. Rust's slab ends the program if memory runs out as it grows. So before it does, room
/// for what is added is asked for and given back: what could never be had is an error, as with theirs.
#[derive(Debug)]
pub struct Slab<T> {
    inner: ::slab::Slab<T>,
}

impl<T> Slab<T> {
    /// As theirs.
    pub fn new(_: Global) -> Slab<T> {
        Slab { inner: ::slab::Slab::new() }
    }

    /// As theirs.
    pub fn len(&self) -> usize {
        self.inner.len()
    }

    /// As theirs.
    pub fn is_empty(&self) -> bool {
        self.inner.is_empty()
    }

    /// See `Slab`.
    pub fn reserve(&mut self, more: usize) -> Result<(), AllocError> {
        if more > self.inner.capacity() - self.inner.len() {
            std::vec::Vec::<(usize, T)>::new().try_reserve(more)?;
            self.inner.reserve(more);
        }
        Ok(())
    }

    /// Theirs takes only a slab that has room; here one without grows.
    pub fn insert_reserved(&mut self, value: T) -> usize {
        self.inner.insert(value)
    }

    /// As theirs.
    pub fn remove(&mut self, key: usize) -> T {
        self.inner.remove(key)
    }
}

impl<T> Index<usize> for Slab<T> {
    type Output = T;

    fn index(&self, key: usize) -> &T {
        &self.inner[key]
    }
}

impl<T> IndexMut<usize> for Slab<T> {
    fn index_mut(&mut self, key: usize) -> &mut T {
        &mut self.inner[key]
    }
}
