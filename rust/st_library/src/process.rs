//! How a program ends.

pub use std::process::ExitCode;

use crate::rt::HostRuntime;

/// The right to end the program, which only tests have.
pub trait Abort {}

impl Abort for HostRuntime {}

/// Their `expect` takes the runtime too, so here it has another name.
pub trait Expect {
    /// The value that is there.
    type Value;

    /// Returns the value; if there is none, the program ends.
    fn expect_on<R: Abort>(self, rt: &R, why: &str) -> Self::Value;
}

impl<T> Expect for Option<T> {
    type Value = T;

    fn expect_on<R: Abort>(self, _: &R, why: &str) -> T {
        self.expect(why)
    }
}

impl<T, E: std::fmt::Debug> Expect for Result<T, E> {
    type Value = T;

    fn expect_on<R: Abort>(self, _: &R, why: &str) -> T {
        self.expect(why)
    }
}
