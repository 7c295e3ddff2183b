//! Maps, sets and heaps.

use crate::alloc::{AllocError, AllocFailed, Global};
use std::collections::btree_set;
use std::hash::Hash;
use std::ops::RangeBounds;

/// As theirs, but the hash is Rust's own, with a seed for each map.
#[derive(Debug)]
pub struct HashMap<K, V> {
    inner: std::collections::HashMap<K, V>,
}

impl<K: Eq + Hash, V> HashMap<K, V> {
    /// As theirs.
    pub fn new(_: Global) -> HashMap<K, V> {
        HashMap { inner: std::collections::HashMap::new() }
    }

    /// As theirs.
    pub fn get(&self, key: &K) -> Option<&V> {
        self.inner.get(key)
    }

    /// As theirs.
    pub fn remove(&mut self, key: &K) -> Option<V> {
        self.inner.remove(key)
    }

    /// As theirs.
    pub fn contains_key(&self, key: &K) -> bool {
        self.inner.contains_key(key)
    }

    /// As theirs.
    pub fn is_empty(&self) -> bool {
        self.inner.is_empty()
    }

    /// As theirs.
    pub fn insert(&mut self, key: K, value: V) -> Result<Option<V>, AllocFailed<(K, V)>> {
        match self.inner.try_reserve(1) {
            Ok(()) => Ok(self.inner.insert(key, value)),
            Err(_) => Err(AllocFailed { value: (key, value) }),
        }
    }

    /// As theirs.
    pub fn reserve(&mut self, more: usize) -> Result<(), AllocError> {
        Ok(self.inner.try_reserve(more)?)
    }
}

/// As `HashMap`.
#[derive(Debug)]
pub struct HashSet<T> {
    inner: std::collections::HashSet<T>,
}

impl<T: Eq + Hash> HashSet<T> {
    /// As theirs.
    pub fn new(_: Global) -> HashSet<T> {
        HashSet { inner: std::collections::HashSet::new() }
    }

    /// As theirs.
    pub fn insert(&mut self, item: T) -> Result<bool, AllocFailed<T>> {
        match self.inner.try_reserve(1) {
            Ok(()) => Ok(self.inner.insert(item)),
            Err(_) => Err(AllocFailed { value: item }),
        }
    }

    /// As theirs.
    pub fn contains(&self, item: &T) -> bool {
        self.inner.contains(item)
    }
}

/// As theirs, but if memory runs out this ends the program.
#[derive(Debug)]
pub struct BTreeMap<K, V> {
    inner: std::collections::BTreeMap<K, V>,
}

impl<K: Ord, V> BTreeMap<K, V> {
    /// As theirs.
    pub fn new(_: Global) -> BTreeMap<K, V> {
        BTreeMap { inner: std::collections::BTreeMap::new() }
    }

    /// As theirs.
    pub fn get(&self, key: &K) -> Option<&V> {
        self.inner.get(key)
    }

    /// As theirs.
    pub fn remove(&mut self, key: &K) -> Option<V> {
        self.inner.remove(key)
    }

    /// See `BTreeMap`.
    pub fn insert(&mut self, key: K, value: V) -> Result<Option<V>, AllocFailed<(K, V)>> {
        Ok(self.inner.insert(key, value))
    }
}

/// As `BTreeMap`.
#[derive(Debug)]
pub struct BTreeSet<T> {
    inner: std::collections::BTreeSet<T>,
}

impl<T: Ord> BTreeSet<T> {
    /// As theirs.
    pub fn new(_: Global) -> BTreeSet<T> {
        BTreeSet { inner: std::collections::BTreeSet::new() }
    }

    /// See `BTreeMap`.
    pub fn insert(&mut self, item: T) -> Result<bool, AllocFailed<T>> {
        Ok(self.inner.insert(item))
    }

    /// As theirs.
    pub fn remove(&mut self, item: &T) -> bool {
        self.inner.remove(item)
    }

    /// As theirs.
    pub fn range<R: RangeBounds<T>>(&self, range: R) -> btree_set::Range<'_, T> {
        self.inner.range(range)
    }
}

impl<'a, T> IntoIterator for &'a BTreeSet<T> {
    type Item = &'a T;
    type IntoIter = btree_set::Iter<'a, T>;

    fn into_iter(self) -> btree_set::Iter<'a, T> {
        self.inner.iter()
    }
}

/// As theirs, but if memory runs out this ends the program.
#[derive(Debug)]
pub struct BinaryHeap<T> {
    inner: std::collections::BinaryHeap<T>,
}

impl<T: Ord> BinaryHeap<T> {
    /// As theirs.
    pub fn new(_: Global) -> BinaryHeap<T> {
        BinaryHeap { inner: std::collections::BinaryHeap::new() }
    }

    /// See `BinaryHeap`.
    pub fn push(&mut self, item: T) -> Result<(), AllocFailed<T>> {
        self.inner.push(item);
        Ok(())
    }

    /// As theirs.
    pub fn pop(&mut self) -> Option<T> {
        self.inner.pop()
    }

    /// As theirs.
    pub fn len(&self) -> usize {
        self.inner.len()
    }

    /// As theirs.
    pub fn is_empty(&self) -> bool {
        self.inner.is_empty()
    }
}
