//! Threads.

pub use std::thread::Scope;

use crate::alloc::{AllocError, Global};
use crate::io;
use crate::rt::HostRuntime;
use crate::sync::Wait;
use crate::time::{Clock, Duration};
use crate::vec::Vec;
use std::sync::{Mutex, PoisonError};

/// The right to start threads.
pub trait Threads {}

impl Threads for HostRuntime {}

/// The contract of a thread about its result; nothing in the program.
pub trait Promise<T> {}

/// Theirs ties the scope to its environment; here Rust does that by itself.
#[derive(Debug)]
pub struct ScopeEnv;

/// See `ScopeEnv`.
pub fn scope_env() -> ScopeEnv {
    ScopeEnv
}

/// Runs the body, and waits for the threads that it started. As theirs.
pub fn scope<'env, R: Threads, F, T>(_: ScopeEnv, _: &R, body: F) -> T
where
    F: for<'scope> FnOnce(&'scope Scope<'scope, 'env>) -> T,
{
    std::thread::scope(body)
}

/// A thread that was started in a scope.
#[derive(Debug)]
pub struct ScopedJoinHandle<'scope, T> {
    inner: std::thread::ScopedJoinHandle<'scope, T>,
}

impl<T> ScopedJoinHandle<'_, T> {
    /// Waits for the thread, and returns what it returned. Theirs has no panics; here one of the thread goes on in the
    /// caller.
    pub fn join<R: Wait>(self, _: &R) -> T {
        match self.inner.join() {
            Ok(result) => result,
            Err(panic) => std::panic::resume_unwind(panic),
        }
    }
}

/// The function that a thread is started with.
#[derive(Debug, Default)]
pub struct Builder {
    stack: usize,
}

impl Builder {
    /// As theirs.
    pub fn new() -> Builder {
        Builder { stack: 0 }
    }

    /// The stack in bytes. As theirs.
    pub fn stack_size(self, stack: usize) -> Builder {
        Builder { stack }
    }

    /// Starts a thread. As theirs.
    pub fn spawn_scoped<'scope, T, F>(
        self,
        scope: &'scope Scope<'scope, '_>,
        work: F,
    ) -> io::Result<ScopedJoinHandle<'scope, T>>
    where
        F: FnOnce() -> T + Send + 'scope,
        T: Send + 'scope,
    {
        let inner = std::thread::Builder::new().stack_size(self.stack).spawn_scoped(scope, work)?;
        Ok(ScopedJoinHandle { inner })
    }
}

/// Starts a thread with a promise, which only contracts see.
#[derive(Debug, Default)]
pub struct Stack {
    builder: Builder,
}

impl Stack {
    /// As theirs.
    pub fn new() -> Stack {
        Stack { builder: Builder::new() }
    }

    /// The stack in bytes. As theirs.
    pub fn stack_size(self, stack: usize) -> Stack {
        Stack { builder: self.builder.stack_size(stack) }
    }

    /// Starts a thread. As theirs.
    pub fn spawn_scoped_with<'scope, P: Promise<T>, T, F>(
        self,
        scope: &'scope Scope<'scope, '_>,
        _: P,
        work: F,
    ) -> io::Result<ScopedJoinHandle<'scope, T>>
    where
        F: FnOnce() -> T + Send + 'scope,
        T: Send + 'scope,
    {
        self.builder.spawn_scoped(scope, work)
    }
}

/// Returns the results of the threads, in order. As theirs.
pub fn join_promised<R: Wait, T>(
    rt: &R,
    threads: Vec<ScopedJoinHandle<'_, T>>,
) -> Result<Vec<T>, AllocError> {
    let mut results = Vec::with_capacity(Global, threads.len())?;
    for thread in threads {
        results.push(thread.join(rt))?;
    }
    Ok(results)
}

/// Runs both, the second in a thread of its own, or in this one if no thread can be started. As theirs.
pub fn join<R, A, B, F, G>(_: &R, first: F, second: G) -> (A, B)
where
    R: Threads,
    F: FnOnce() -> A + Send,
    G: FnOnce() -> B + Send,
    A: Send,
    B: Send,
{
    let second = Mutex::new(Some(second));
    let run_second = || second.lock().unwrap_or_else(PoisonError::into_inner).take().map(|run| run());
    std::thread::scope(|scope| {
        let other = std::thread::Builder::new().spawn_scoped(scope, run_second);
        let one = first();
        let two = match other {
            Ok(thread) => thread.join().unwrap_or_else(|panic| std::panic::resume_unwind(panic)),
            Err(_) => run_second(),
        };
        match two {
            Some(two) => (one, two),
            None => unreachable!("only one of the two threads runs it"),
        }
    })
}

/// Waits so long. As theirs.
pub fn sleep<R: Clock>(_: &R, duration: Duration) {
    std::thread::sleep(duration);
}
