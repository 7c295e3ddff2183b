//! An input: standard input, a file, or the file of a trace's name, packed by gzip or not.

use crate::names::{self, Names};
use crate::output::{own_file, Notes};
use crate::{causes, lint, Failure};
use flate2::read::MultiGzDecoder;
use gemshowal::{NodeTrace, ReadError, Trace, WRAPPED};
use std::fs::{self, File};
use std::io::{self, BufReader, Cursor, ErrorKind, Read, Seek, Write};
use std::path::{Path, PathBuf};
use std::sync::Arc;
use std::{env, process};

const GZIP: &[u8] = b"\x1f\x8b";

pub(crate) struct Input {
    name: String,
    /// The file, or `-`.
    path: PathBuf,
    /// The file, to be read once more; none for standard input.
    file: Option<Arc<File>>,
    reader: Box<dyn Read>,
}

impl Input {
    /// Opens the file of this path, that of the trace of this name, or standard input for `-`.
    pub(crate) fn open(path: &Path) -> Result<Input, Failure> {
        let path = names::trace_file(path);
        if path == Path::new("-") {
            let name = "standard input".to_owned();
            let reader = unpacked(Box::new(io::stdin().lock()));
            let reader = reader.map_err(|reason| Failure::Unread(name.clone(), reason))?;
            return Ok(Input { name, path, file: None, reader });
        }
        let name = path.to_string_lossy().into_owned();
        let file = File::open(&path).map(Arc::new);
        let file = file.map_err(|reason| Failure::Unopened(on_one_line(&name).into(), reason))?;
        let reader = unpacked(Box::new(Arc::clone(&file)));
        let reader = reader.map_err(|reason| Failure::Unread(on_one_line(&name).into(), reason))?;
        Ok(Input { name, path, file: Some(file), reader })
    }

    /// Returns the name in messages, whole: also with a line break in it.
    pub(crate) fn name(&self) -> &str {
        &self.name
    }

    /// Returns the name on one line: one with a line break would look like another file's.
    pub(crate) fn line_name(&self) -> &str {
        on_one_line(&self.name)
    }

    /// Returns the trace's name on a command line: without the extension, if files lie next to it.
    pub(crate) fn word(&self) -> String {
        let path = self.path.to_string_lossy();
        path.strip_suffix(".seqtrace").unwrap_or(&path).to_owned()
    }

    /// Returns whether the text is that of a node whose counters have wrapped. Leaves it unread.
    pub(crate) fn is_wrapped(&mut self) -> Result<bool, Failure> {
        let mut front = Vec::new();
        let read = self.reader.by_ref().take(WRAPPED.len() as u64).read_to_end(&mut front);
        read.map_err(|reason| self.unread(reason))?;
        let is_wrapped = front == WRAPPED;
        let rest = self.take();
        self.reader = Box::new(Cursor::new(front).chain(rest));
        Ok(is_wrapped)
    }

    /// Reads a trace as one of a standard node, whether its counters have wrapped or not, and the
    /// names that the files next to it give it.
    pub(crate) fn read_node(&mut self, notes: &mut Notes) -> Result<(NodeTrace, Names), Failure> {
        if self.is_wrapped()? {
            let trace = self.read_wrapped(NodeTrace::read)?;
            let names = Names::beside(&self.path, trace.trace(), notes)?;
            return Ok((trace, names));
        }
        let (trace, names) = self.read(notes)?;
        let answers = causes::answers(&trace, &names);
        Ok((NodeTrace::new(trace, answers), names))
    }

    pub(crate) fn read_wrapped<T>(
        &mut self,
        read: fn(Vec<u8>) -> Result<T, ReadError>,
    ) -> Result<T, Failure> {
        // No other command knows this version, so lint has no words for its faults.
        let no_text = |_: &mut Input| Err(ErrorKind::Unsupported.into());
        read(self.bytes()?).map_err(|error| self.refused(error, no_text))
    }

    pub(crate) fn read(&mut self, notes: &mut Notes) -> Result<(Trace, Names), Failure> {
        let trace = self.trace()?;
        let names = Names::beside(&self.path, &trace, notes)?;
        Ok((trace, names))
    }

    pub(crate) fn title(&self) -> String {
        let word = self.word();
        Path::new(&word).file_name().map_or(word.clone(), |name| name.to_string_lossy().into())
    }

    pub(crate) fn trace(&mut self) -> Result<Trace, Failure> {
        if self.file.is_some() {
            let read = Trace::read(&mut self.reader);
            return read.map_err(|error| self.refused(error, Input::again));
        }
        let mut spooled = Spooled::new(&mut self.reader);
        let error = match Trace::read(&mut spooled) {
            Ok(trace) => return Ok(trace),
            Err(error) => error,
        };
        let mut bytes = Vec::new();
        let kept = spooled.replay().and_then(|mut kept| kept.read_to_end(&mut bytes));
        Err(self.refused(error, |_| kept.map(|_| bytes)))
    }

    fn refused(
        &mut self,
        error: ReadError,
        text: impl FnOnce(&mut Input) -> io::Result<Vec<u8>>,
    ) -> Failure {
        match error {
            ReadError::Memory(error) => error.into(),
            ReadError::Io(reason) => self.unread(reason),
            ReadError::TooLarge => Failure::TooLarge(self.line_name().into()),
            ReadError::Faulty(fault) => {
                let words = text(self).ok().and_then(|text| lint::first_refused(&text));
                let words = words.unwrap_or_else(|| format!(": {fault}"));
                Failure::Faulty(self.line_name().into(), words)
            }
        }
    }

    pub(crate) fn take(&mut self) -> Box<dyn Read> {
        std::mem::replace(&mut self.reader, Box::new(io::empty()))
    }

    pub(crate) fn path(&self) -> &Path {
        &self.path
    }

    /// Returns whether it can be opened again: a pipe gives its bytes once.
    pub(crate) fn is_regular(&self) -> bool {
        let data = self.file.as_ref().and_then(|file| file.metadata().ok());
        data.is_some_and(|data| data.is_file())
    }

    pub(crate) fn bytes(&mut self) -> Result<Vec<u8>, Failure> {
        let mut bytes = Vec::new();
        let most = gemshowal::LIMITS.bytes;
        let read = self.reader.by_ref().take(most + 1).read_to_end(&mut bytes);
        match read.map_err(|reason| self.unread(reason))? as u64 > most {
            true => Err(Failure::TooLarge(self.line_name().into())),
            false => Ok(bytes),
        }
    }

    fn again(&mut self) -> io::Result<Vec<u8>> {
        let mut file = self.file.take().ok_or(ErrorKind::Unsupported)?;
        file.rewind()?;
        let mut bytes = Vec::new();
        unpacked(Box::new(file))?.read_to_end(&mut bytes)?;
        Ok(bytes)
    }

    fn unread(&self, reason: io::Error) -> Failure {
        match reason.kind() {
            ErrorKind::OutOfMemory => gemshowal::OutOfMemory.into(),
            _ => Failure::Unread(self.line_name().into(), reason),
        }
    }
}

fn unpacked(mut reader: Box<dyn Read>) -> io::Result<Box<dyn Read>> {
    let mut front = Vec::new();
    reader.by_ref().take(GZIP.len() as u64).read_to_end(&mut front)?;
    let is_packed = front == GZIP;
    let whole = Cursor::new(front).chain(reader);
    Ok(match is_packed {
        true => Box::new(Unpacking(MultiGzDecoder::new(BufReader::new(whole)))),
        false => Box::new(whole),
    })
}

/// A reader that unpacks, and says of an error that it is one of the packing.
struct Unpacking<R>(MultiGzDecoder<R>);

impl<R: Read> Read for Unpacking<R> {
    fn read(&mut self, piece: &mut [u8]) -> io::Result<usize> {
        self.0.read(piece).map_err(|error| match error.kind() {
            ErrorKind::InvalidInput | ErrorKind::InvalidData | ErrorKind::UnexpectedEof => {
                let words = "it is packed by gzip, and damaged or cut short";
                io::Error::new(ErrorKind::InvalidData, words)
            }
            _ => error,
        })
    }
}

fn on_one_line(name: &str) -> &str {
    match name.chars().any(char::is_control) {
        true => "a file with a control character in its name",
        false => name,
    }
}

/// The most bytes that are kept in memory. A longer text goes to a file without a name.
const IN_MEMORY: usize = 16_777_216;

/// A reader that keeps what it reads. If that fails, it goes on, and the text is lost.
pub(crate) struct Spooled<R> {
    reader: R,
    held: Vec<u8>,
    file: io::Result<Option<File>>,
}

impl<R: Read> Spooled<R> {
    pub(crate) fn new(reader: R) -> Spooled<R> {
        Spooled { reader, held: Vec::new(), file: Ok(None) }
    }

    pub(crate) fn replay(&mut self) -> io::Result<impl Read + '_> {
        let file = self.file.as_mut().map_err(|error| {
            let words = format!("it can't be kept in {}: {error}", env::temp_dir().display());
            io::Error::new(error.kind(), words)
        })?;
        let mut front: Box<dyn Read> = Box::new(io::empty());
        if let Some(file) = file {
            file.rewind()?;
            front = Box::new(file);
        }
        Ok(front.chain(&self.held[..]))
    }

    fn pour(&mut self) -> io::Result<()> {
        if let Ok(file @ None) = &mut self.file {
            *file = Some(nameless()?);
        }
        if let Ok(Some(file)) = &mut self.file {
            file.write_all(&self.held)?;
        }
        Ok(())
    }
}

impl<R: Read> Read for Spooled<R> {
    fn read(&mut self, piece: &mut [u8]) -> io::Result<usize> {
        let taken = self.reader.read(piece)?;
        self.held.extend_from_slice(&piece[..taken]);
        if self.held.len() > IN_MEMORY {
            if let Err(error) = self.pour() {
                self.file = Err(error);
            }
            self.held.clear();
        }
        Ok(taken)
    }
}

fn nameless() -> io::Result<File> {
    let path = env::temp_dir().join(format!("gemshowal-{}", process::id()));
    let file = own_file().read(true).create_new(true).open(&path)?;
    fs::remove_file(&path)?;
    Ok(file)
}
