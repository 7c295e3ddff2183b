//! The names that each file of the sources sees without an import.

pub use crate::boxed::Box;
pub use crate::iter::CollectIn;
pub use crate::process::Expect;
pub use crate::rt::{AllocGlobal, HostRuntime};
pub use crate::vec::Vec;
// Before Rust 1.87 `from_utf8` is the module's alone.
pub use std::str;

/// In Rattle a bound that a value may be let go. In Rust each value may.
pub trait Drop {}

impl<T: ?Sized> Drop for T {}
