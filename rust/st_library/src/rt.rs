//! The runtime: what a function may do besides computing, each right a trait.

use crate::alloc::Global;
use crate::io::{Stdin, Stdout};

/// Theirs can't be made by the program, so that only what `main` hands out may be done. Here it is an empty value.
#[derive(Clone, Copy, Debug, Default)]
pub struct HostRuntime;

impl HostRuntime {
    /// Theirs has no such call: `main` and each test are given one.
    pub fn new() -> HostRuntime {
        HostRuntime
    }

    /// Standard input. As theirs.
    pub fn stdin(&self) -> Stdin {
        Stdin
    }

    /// Standard output. As theirs.
    pub fn stdout(&self) -> Stdout {
        Stdout
    }
}

/// The right to allocate memory.
pub trait AllocGlobal {
    /// The allocator.
    fn alloc(&self) -> Global {
        Global
    }
}

/// The right to open files.
pub trait Files {}

impl AllocGlobal for HostRuntime {}
impl Files for HostRuntime {}
