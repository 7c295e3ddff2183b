//! The result of a test.

use crate::rt::HostRuntime;
use std::fmt::Debug;

/// Why a test failed. As theirs.
pub struct Fail {
    why: String,
}

impl<E: Debug> From<E> for Fail {
    fn from(error: E) -> Fail {
        Fail { why: format!("{error:?}") }
    }
}

/// The result of a test.
pub trait Outcome {
    /// Fails the test if it failed.
    fn judge(self);
}

impl Outcome for () {
    fn judge(self) {}
}

impl Outcome for Result<(), Fail> {
    fn judge(self) {
        if let Err(fail) = self {
            panic!("{}", fail.why);
        }
    }
}

/// Runs a test. Theirs are given the runtime and may return a `Fail`; Rust's tests are given nothing, and what they return has
/// to be `Debug`, which `Fail` can't be.
pub fn run<T: Outcome, F: FnOnce(HostRuntime) -> T>(test: F) {
    test(HostRuntime::new()).judge();
}
