//! Memory that can run out.

use std::collections::TryReserveError;
use std::{fmt, io};

/// Theirs is one of several allocators; here each call uses Rust's global one.
#[derive(Clone, Copy, Debug)]
pub struct Global;

/// Memory ran out. As theirs.
#[derive(Clone, Copy, Debug, PartialEq, Eq)]
pub struct AllocError;

impl fmt::Display for AllocError {
    fn fmt(&self, f: &mut fmt::Formatter<'_>) -> fmt::Result {
        f.write_str("memory ran out")
    }
}

impl std::error::Error for AllocError {}

/// Memory ran out, and what was to be kept comes back. As theirs.
#[derive(Clone, Copy)]
pub struct AllocFailed<T> {
    /// The value that wasn't kept.
    pub value: T,
}

impl<T> fmt::Debug for AllocFailed<T> {
    fn fmt(&self, f: &mut fmt::Formatter<'_>) -> fmt::Result {
        f.write_str("AllocFailed")
    }
}

impl<T> fmt::Display for AllocFailed<T> {
    fn fmt(&self, f: &mut fmt::Formatter<'_>) -> fmt::Result {
        AllocError.fmt(f)
    }
}

impl<T> std::error::Error for AllocFailed<T> {}

impl<T> From<AllocFailed<T>> for AllocError {
    fn from(_: AllocFailed<T>) -> AllocError {
        AllocError
    }
}

impl From<AllocError> for io::Error {
    fn from(_: AllocError) -> io::Error {
        io::Error::from(io::ErrorKind::OutOfMemory)
    }
}

impl From<TryReserveError> for AllocError {
    fn from(_: TryReserveError) -> AllocError {
        AllocError
    }
}
