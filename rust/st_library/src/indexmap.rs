//! Maps and sets in the order of insertion, the same as theirs; but if memory runs out these end the program.

use crate::alloc::{AllocError, AllocFailed, Global};
use std::cell::Cell;
use std::hash::{BuildHasher, Hash};

/// How many keys a thread has looked for.
#[derive(Clone, Copy, Debug, PartialEq, Eq)]
pub struct Searches {
    /// Those in maps.
    pub maps: u64,
    /// Those in sets.
    pub sets: u64,
}

thread_local! {
    static SEARCHES: Cell<Searches> = const { Cell::new(Searches { maps: 0, sets: 0 }) };
}

/// Those of this thread, which a debug build counts for tests.
pub fn searches() -> Searches {
    SEARCHES.get()
}

fn count(maps: u64, sets: u64) {
    if cfg!(debug_assertions) {
        let so_far = searches();
        SEARCHES.set(Searches { maps: so_far.maps + maps, sets: so_far.sets + sets });
    }
}

/// As theirs.
#[derive(Debug)]
pub struct IndexMap<K, V, S> {
    inner: ::indexmap::IndexMap<K, V, S>,
}

impl<K: Eq + Hash, V, S: BuildHasher> IndexMap<K, V, S> {
    /// As theirs.
    pub fn with_hasher(_: Global, hasher: S) -> IndexMap<K, V, S> {
        IndexMap { inner: ::indexmap::IndexMap::with_capacity_and_hasher(0, hasher) }
    }

    /// As theirs.
    pub fn get(&self, key: &K) -> Option<&V> {
        count(1, 0);
        self.inner.get(key)
    }

    /// As theirs.
    pub fn insert(&mut self, key: K, value: V) -> Result<Option<V>, AllocFailed<(K, V)>> {
        count(1, 0);
        Ok(self.inner.insert(key, value))
    }
}

/// As theirs.
#[derive(Debug)]
pub struct IndexSet<T, S> {
    inner: ::indexmap::IndexSet<T, S>,
}

impl<T: Eq + Hash, S: BuildHasher> IndexSet<T, S> {
    /// As theirs.
    pub fn with_capacity_and_hasher(_: Global, room: usize, hasher: S) -> Result<IndexSet<T, S>, AllocError> {
        Ok(IndexSet { inner: ::indexmap::IndexSet::with_capacity_and_hasher(room, hasher) })
    }

    /// As theirs.
    pub fn insert(&mut self, item: T) -> Result<bool, AllocFailed<T>> {
        count(0, 1);
        Ok(self.inner.insert(item))
    }

    /// As theirs.
    pub fn get_index(&self, index: usize) -> Option<&T> {
        self.inner.get_index(index)
    }

    /// As theirs.
    pub fn get_index_of(&self, item: &T) -> Option<usize> {
        count(0, 1);
        self.inner.get_index_of(item)
    }
}
