//! Stands for the library of Rattle's toolchain, over Rust's own and the crates of the registry.
//!
//! The programs' sources were proved over the toolchain's library, whose contracts say what each call returns. Nothing of
//! this crate is proved. It has what the sources use and no more, and each item says where it differs from theirs. What most
//! have in common: theirs takes an allocator and returns an error if memory runs out, as here all do that Rust has a
//! fallible call for; the others end the program, as Rust's do.

pub mod alloc;
pub mod arrayvec;
pub mod boxed;
pub mod clap;
pub mod collections;
pub mod convert;
pub mod env;
pub mod fmt;
pub mod fs;
pub mod indexmap;
pub mod io;
pub mod iter;
pub mod itoa;
mod macros;
pub mod memchr;
pub mod prelude;
pub mod process;
pub mod rayon;
pub mod rt;
pub mod sha2;
pub mod slab;
pub mod snapshot;
pub mod sync;
pub mod test;
pub mod thread;
pub mod time;
pub mod vec;

pub use std::{cell, cmp, hash, hint, mem, ops, str};
