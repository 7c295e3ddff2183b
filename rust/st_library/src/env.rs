//! The words of the command line.

use crate::alloc::Global;
use crate::io;
use crate::rt::HostRuntime;
use crate::vec::Vec;

/// The words.
#[derive(Debug)]
pub struct Args {
    words: std::env::ArgsOs,
}

/// The words of the command line, the program's name first. As theirs.
pub fn args(_: &HostRuntime) -> io::Result<Args> {
    Ok(Args { words: std::env::args_os() })
}

impl Args {
    /// All of them. A word that isn't UTF-8 is an error that isn't `OutOfMemory`, as with theirs.
    pub fn collect_in(self, alloc: Global) -> io::Result<Vec<String>> {
        let mut all = Vec::new(alloc);
        for word in self.words {
            let word = word.into_string().map_err(|_| io::Error::from(io::ErrorKind::InvalidData))?;
            all.push(word).map_err(|_| io::Error::from(io::ErrorKind::OutOfMemory))?;
        }
        Ok(all)
    }
}
