//! Values that are read as text.

/// A value that is a text. As theirs.
pub trait AsStr {
    /// The text.
    fn as_str(&self) -> &str;
}

impl AsStr for &str {
    fn as_str(&self) -> &str {
        self
    }
}

impl AsStr for String {
    fn as_str(&self) -> &str {
        self
    }
}
