//! Values that contracts speak of later.

use std::marker::PhantomData;

/// Theirs keeps a value for the contracts and is nothing in the program, as here.
#[derive(Debug)]
pub struct Snapshot<T> {
    value: PhantomData<fn() -> T>,
}

impl<T> Snapshot<T> {
    /// The value as it is now.
    pub fn of(_: &T) -> Snapshot<T> {
        Snapshot { value: PhantomData }
    }
}
