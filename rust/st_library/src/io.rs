//! Readers and writers. The traits and errors are Rust's own, whose calls are as theirs.

pub use std::io::{Error, ErrorKind, Read, Result, Write};

/// The standard files that were closed when the program began. Rust's runtime opens `/dev/null` in its place before `main`, so that nobody would
/// see that nothing is read or that all that is written is lost. So it's asked for before that.
#[cfg(target_os = "linux")]
mod closed {
    use std::ffi::c_int;
    use std::sync::atomic::{AtomicBool, Ordering};

    const F_GETFD: c_int = 1;

    extern "C" {
        fn fcntl(file: c_int, command: c_int, ...) -> c_int;
    }

    /// Standard input, output and error: whether each was closed.
    static WAS_CLOSED: [AtomicBool; 3] = [const { AtomicBool::new(false) }; 3];

    /// The loader calls it before the runtime begins.
    #[used]
    #[link_section = ".init_array"]
    static LOOK: extern "C" fn() = look;

    extern "C" fn look() {
        for (number, was_closed) in (0..).zip(&WAS_CLOSED) {
            // SAFETY: F_GETFD changes nothing and takes any number: of a closed file it returns an error.
            let flags = unsafe { fcntl(number, F_GETFD) };
            was_closed.store(flags < 0, Ordering::Relaxed);
        }
    }

    /// Whether the file of this number was closed.
    pub(super) fn was_closed(number: usize) -> bool {
        WAS_CLOSED[number].load(Ordering::Relaxed)
    }
}

/// Fails if the standard file of this number was closed when the program began.
#[cfg(target_os = "linux")]
fn was_open(number: usize) -> Result<()> {
    const EBADF: i32 = 9;
    if closed::was_closed(number) {
        return Err(Error::from_raw_os_error(EBADF));
    }
    Ok(())
}

#[cfg(not(target_os = "linux"))]
fn was_open(_: usize) -> Result<()> {
    Ok(())
}

/// Standard input. Theirs reads the file as it is; here Rust's buffer is between, which a large piece passes by.
#[derive(Debug)]
pub struct Stdin;

impl Read for Stdin {
    fn read(&mut self, piece: &mut [u8]) -> Result<usize> {
        match std::io::stdin().lock().read(piece)? {
            0 => was_open(0).map(|()| 0),
            taken => Ok(taken),
        }
    }
}

/// Standard output. As theirs, it writes each piece at once.
#[derive(Debug)]
pub struct Stdout;

/// The file of standard output. Rust's own `Stdout` keeps the part of a line that isn't ended, for which it searches
/// each piece and writes twice.
#[cfg(unix)]
fn output() -> Result<&'static std::fs::File> {
    use std::fs::File;
    use std::os::fd::AsFd;
    use std::sync::OnceLock;
    static OUTPUT: OnceLock<File> = OnceLock::new();
    if let Some(file) = OUTPUT.get() {
        return Ok(file);
    }
    was_open(1)?;
    let file = File::from(std::io::stdout().as_fd().try_clone_to_owned()?);
    Ok(OUTPUT.get_or_init(|| file))
}

impl Write for Stdout {
    #[cfg(unix)]
    fn write(&mut self, piece: &[u8]) -> Result<usize> {
        output()?.write(piece)
    }

    #[cfg(not(unix))]
    fn write(&mut self, piece: &[u8]) -> Result<usize> {
        let mut out = std::io::stdout().lock();
        let taken = out.write(piece)?;
        out.flush()?;
        Ok(taken)
    }

    fn flush(&mut self) -> Result<()> {
        std::io::stdout().flush()
    }
}

/// A list takes all bytes, at its end. As theirs.
impl Write for crate::vec::Vec<u8> {
    fn write(&mut self, piece: &[u8]) -> Result<usize> {
        match self.extend_from_slice(piece) {
            Ok(()) => Ok(piece.len()),
            Err(_) => Err(ErrorKind::OutOfMemory.into()),
        }
    }

    fn flush(&mut self) -> Result<()> {
        Ok(())
    }
}
