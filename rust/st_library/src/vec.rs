//! A list whose growth can fail.

use crate::alloc::{AllocError, AllocFailed, Global};
use std::ops::{Deref, DerefMut};

/// A list. Theirs has an allocator of its own type; by how much a list grows may differ.
#[derive(Debug, PartialEq, Eq)]
pub struct Vec<T> {
    items: std::vec::Vec<T>,
}

impl<T> Vec<T> {
    /// As theirs.
    pub fn new(_: Global) -> Vec<T> {
        Vec { items: std::vec::Vec::new() }
    }

    /// As theirs.
    pub fn with_capacity(_: Global, capacity: usize) -> Result<Vec<T>, AllocError> {
        let mut items = std::vec::Vec::new();
        items.try_reserve_exact(capacity)?;
        Ok(Vec { items })
    }

    /// As theirs.
    pub fn from_slice(alloc: Global, items: &[T]) -> Result<Vec<T>, AllocError>
    where
        T: Clone,
    {
        let mut all = Vec::with_capacity(alloc, items.len())?;
        all.items.extend_from_slice(items);
        Ok(all)
    }

    /// As theirs. `vec![in alloc; item; n]` calls it.
    pub fn filled(alloc: Global, item: T, n: usize) -> Result<Vec<T>, AllocError>
    where
        T: Clone,
    {
        let mut all = Vec::with_capacity(alloc, n)?;
        all.items.resize(n, item);
        Ok(all)
    }

    /// Theirs is the list's own allocator.
    pub fn allocator(&self) -> &Global {
        &Global
    }

    /// As theirs.
    #[inline]
    pub fn push(&mut self, item: T) -> Result<(), AllocFailed<T>> {
        if self.items.len() == self.items.capacity() && self.items.try_reserve(1).is_err() {
            return Err(AllocFailed { value: item });
        }
        self.items.push(item);
        Ok(())
    }

    /// Theirs takes only a list that has room; here one without grows, or ends the program.
    #[inline]
    pub fn push_reserved(&mut self, item: T) {
        self.items.push(item);
    }

    /// As theirs.
    pub fn reserve(&mut self, more: usize) -> Result<(), AllocError> {
        Ok(self.items.try_reserve(more)?)
    }

    /// As theirs.
    pub fn extend_from_slice(&mut self, more: &[T]) -> Result<(), AllocError>
    where
        T: Clone,
    {
        self.items.try_reserve(more.len())?;
        self.items.extend_from_slice(more);
        Ok(())
    }

    /// As theirs.
    pub fn resize(&mut self, len: usize, item: T) -> Result<(), AllocError>
    where
        T: Clone,
    {
        self.items.try_reserve(len.saturating_sub(self.items.len()))?;
        self.items.resize(len, item);
        Ok(())
    }

    /// As theirs.
    pub fn pop(&mut self) -> Option<T> {
        self.items.pop()
    }

    /// As theirs.
    pub fn clear(&mut self) {
        self.items.clear();
    }

    /// As theirs.
    #[inline]
    pub fn as_slice(&self) -> &[T] {
        &self.items
    }

    /// As theirs.
    #[inline]
    pub fn as_mut_slice(&mut self) -> &mut [T] {
        &mut self.items
    }

    /// As theirs.
    pub fn dedup(&mut self)
    where
        T: PartialEq,
    {
        self.items.dedup();
    }

    /// As theirs, but if memory runs out this ends the program.
    pub fn sort(&mut self) -> Result<(), AllocError>
    where
        T: Ord,
    {
        self.items.sort();
        Ok(())
    }

    /// As theirs, but if memory runs out this ends the program.
    pub fn sort_by_key<K: Ord, F: FnMut(&T) -> K>(&mut self, key: F) -> Result<(), AllocError> {
        self.items.sort_by_key(key);
        Ok(())
    }
}

impl<T> Deref for Vec<T> {
    type Target = [T];

    #[inline]
    fn deref(&self) -> &[T] {
        &self.items
    }
}

impl<T> DerefMut for Vec<T> {
    #[inline]
    fn deref_mut(&mut self) -> &mut [T] {
        &mut self.items
    }
}

impl<T> IntoIterator for Vec<T> {
    type Item = T;
    type IntoIter = std::vec::IntoIter<T>;

    fn into_iter(self) -> Self::IntoIter {
        self.items.into_iter()
    }
}

impl<'a, T> IntoIterator for &'a Vec<T> {
    type Item = &'a T;
    type IntoIter = std::slice::Iter<'a, T>;

    fn into_iter(self) -> Self::IntoIter {
        self.items.iter()
    }
}

impl<'a, T> IntoIterator for &'a mut Vec<T> {
    type Item = &'a mut T;
    type IntoIter = std::slice::IterMut<'a, T>;

    fn into_iter(self) -> Self::IntoIter {
        self.items.iter_mut()
    }
}
