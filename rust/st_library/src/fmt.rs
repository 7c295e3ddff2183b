//! Texts of values.

pub use std::fmt::*;

use crate::alloc::AllocError;

/// The result of `format!`.
pub fn written(text: String) -> std::result::Result<String, AllocError> {
    Ok(text)
}
