//! The verdict of `complete` on traces of any size. `scatter` and `judge` are filters before and
//! behind any sort by lines, `gather` says the verdict, and `verdict` runs all three around `sort`.
//! Each is a function of its input's bytes, so whoever runs them on many machines may run them
//! again.

mod gather;
mod judge;
mod reader;
mod record;
mod scatter;
mod verdict;

pub(crate) use self::reader::{walk, Entry, Reported};

use crate::args::Pieces;
use crate::input::Input;
use crate::{output, Failure, Status};
use std::io::{self, BufRead, BufReader, BufWriter, Read, Write};
use std::path::{Path, PathBuf};

/// The bytes that are read at once.
pub(crate) const BUFFER: usize = 1 << 20;

/// More bytes than a line of a trace or of a filter has: more aren't read before it is refused.
const LONGEST: usize = 4096;

/// The lines of a text, without their ends.
struct Lines<R> {
    input: R,
    line: Vec<u8>,
    /// The number of lines that were read.
    number: u64,
}

/// The next line of a text, or its end.
enum Next<'a> {
    Line(&'a [u8]),
    /// The last line has no end.
    Torn,
    End,
}

impl<R: BufRead> Lines<R> {
    fn new(input: R) -> Lines<R> {
        Lines { input, line: Vec::new(), number: 0 }
    }

    fn next(&mut self) -> io::Result<Next<'_>> {
        self.line.clear();
        let mut front = self.input.by_ref().take(LONGEST as u64);
        if front.read_until(b'\n', &mut self.line)? == 0 {
            return Ok(Next::End);
        }
        self.number += 1;
        Ok(match self.line.split_last() {
            Some((b'\n', line)) => Next::Line(line),
            _ if self.line.len() == LONGEST => Next::Line(&self.line),
            _ => Next::Torn,
        })
    }
}

/// Hands on the lines of a sorted text, each with the one before it. The function returns
/// `Ok(None)` for a line that isn't one of this filter's.
fn walk_sorted(
    name: &str,
    input: impl BufRead,
    filter: &str,
    mut each: impl FnMut(&[u8], &[u8]) -> Result<Option<()>, Failure>,
) -> Result<(), Failure> {
    let mut lines = Lines::new(input);
    let mut before = Vec::new();
    loop {
        let number = lines.number + 1;
        let torn = || Failure::Torn(format!("{name}: line {number} is none of {filter}'s, sorted"));
        match lines.next().map_err(|reason| Failure::Unread(name.to_owned(), reason))? {
            Next::Line(line) if line >= &before[..] => {
                each(line, &before)?.ok_or_else(torn)?;
                before.clear();
                before.extend_from_slice(line);
            }
            Next::Line(_) | Next::Torn => return Err(torn()),
            Next::End => return Ok(()),
        }
    }
}

fn open(file: &Path) -> Result<(String, impl BufRead), Failure> {
    let mut input = Input::open(file)?;
    Ok((input.line_name().to_owned(), BufReader::with_capacity(BUFFER, input.take())))
}

/// Numbers the parts from this one on.
fn parts(files: &[PathBuf], first: u16) -> Result<impl Iterator<Item = (&PathBuf, u16)>, Failure> {
    if files.len() > usize::from(u16::MAX - first) + 1 {
        return Err(Failure::Torn(format!("the number of a part is above {}", u16::MAX)));
    }
    Ok(files.iter().zip(first..=u16::MAX))
}

/// Runs one of the commands, and returns the status.
pub(crate) fn run(pieces: &Pieces, is_quiet: bool) -> Result<u8, Failure> {
    let mut out = BufWriter::with_capacity(BUFFER, output::device(is_quiet)?);
    let status = match pieces {
        Pieces::Scatter(args) => {
            let mut scatter = scatter::Scatter::new(&mut out);
            for (file, part) in parts(&args.files, args.part)? {
                let (name, input) = open(file)?;
                scatter.take(part, &name, input, |_| ())?;
            }
            scatter.finish()?;
            Status::Yes
        }
        Pieces::Judge(args) => {
            let (name, input) = open(&args.file)?;
            judge::judge(&name, input, &mut out, |_| ())?;
            Status::Yes
        }
        Pieces::Gather(args) => {
            let (name, input) = open(&args.file)?;
            gather::gather(&name, input, &mut out)?
        }
        Pieces::Verdict(args) => verdict::verdict(args, &mut out)?,
    };
    out.flush()?;
    Ok(status as u8)
}
