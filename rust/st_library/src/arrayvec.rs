//! As theirs.

pub use ::arrayvec::ArrayVec;
