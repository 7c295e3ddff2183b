//! A value on the heap.

use std::boxed;
use std::ops::{Deref, DerefMut};

use crate::alloc::{AllocFailed, Global};

/// A value on the heap. If memory runs out for it, theirs gives it back; here the program ends, as with Rust's own.
#[derive(Debug)]
pub struct Box<T>(boxed::Box<T>);

impl<T> Box<T> {
    pub fn new(_: Global, value: T) -> Result<Box<T>, AllocFailed<T>> {
        Ok(Box(boxed::Box::new(value)))
    }
}

impl<T> Deref for Box<T> {
    type Target = T;

    fn deref(&self) -> &T {
        &self.0
    }
}

impl<T> DerefMut for Box<T> {
    fn deref_mut(&mut self) -> &mut T {
        &mut self.0
    }
}
