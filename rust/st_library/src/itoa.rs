//! As theirs.

pub use ::itoa::Buffer;
