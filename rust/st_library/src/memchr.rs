//! As theirs.

pub use ::memchr::{memchr, memrchr};
