//! Files.

use crate::io;
use crate::rt::Files;
pub use std::fs::File;

/// Opens a file to read it. As theirs.
pub fn open<R: Files>(_: &R, path: &str) -> io::Result<File> {
    File::open(path)
}
