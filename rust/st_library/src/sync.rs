//! Locks.

pub use std::sync::{MutexGuard, PoisonError, atomic};

use crate::rt::HostRuntime;

/// The right to wait, maybe for ever.
pub trait Wait {}

impl Wait for HostRuntime {}

/// A lock. Theirs knows no poison, since nothing panics while it is held; here poison is passed over.
#[derive(Debug, Default)]
pub struct Mutex<T> {
    inner: std::sync::Mutex<T>,
}

impl<T> Mutex<T> {
    /// As theirs.
    pub fn new(value: T) -> Mutex<T> {
        Mutex { inner: std::sync::Mutex::new(value) }
    }

    /// Waits for the lock. As theirs.
    pub fn lock<R: Wait>(&self, _: &R) -> MutexGuard<'_, T> {
        self.inner.lock().unwrap_or_else(PoisonError::into_inner)
    }

    /// The lock, if nobody holds it. As theirs.
    pub fn try_lock(&self) -> Option<MutexGuard<'_, T>> {
        self.inner.try_lock().ok()
    }

    /// As theirs.
    pub fn into_inner(self) -> T {
        self.inner.into_inner().unwrap_or_else(PoisonError::into_inner)
    }
}
