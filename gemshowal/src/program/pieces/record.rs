//! The lines between the filters. A process's lines begin with its key, and `LC_ALL=C sort` puts
//! them in the order of this table:
//!
//! | Line of `scatter` | Says |
//! |---|---|
//! | KEY 0 PART | the process is listed in this part |
//! | KEY 1 PLACE EVENT | the process reported this event |
//! | KEY 2 COUNT PID PLACE EVENT | this process received a message of this count from it |
//! | KEY 3 | an event names it as a receiver |
//! | ~ and four counts | how many lines of each kind one run of `scatter` wrote |
//!
//! All numbers are hexadecimal and of one width, but for the counts.

use gemshowal::Pid;
use std::io::{self, Write};

/// The bytes that come before the counts, after the keys of all processes.
pub(super) const COUNTS: &[u8] = b"~";

/// The digits of a pid, and of a number.
const PID_DIGITS: usize = 8;
const DIGITS: usize = 16;

/// The bits of a place that say the index. The others say the part, so that places of one process
/// are ordered as its events are.
const INDEX_BITS: u32 = 48;

/// The place of an event in the parts of a trace, as one number.
#[derive(Clone, Copy, Debug, PartialEq, Eq, PartialOrd, Ord)]
pub(super) struct Place(pub(super) u64);

impl Place {
    pub(super) fn new(part: u16, index: u64) -> Place {
        Place(u64::from(part) << INDEX_BITS | index)
    }

    pub(super) fn part(self) -> u16 {
        (self.0 >> INDEX_BITS) as u16
    }

    pub(super) fn index(self) -> u64 {
        self.0 & ((1 << INDEX_BITS) - 1)
    }
}

#[derive(Debug, Default)]
pub(super) struct Line(Vec<u8>);

impl Line {
    /// Begins a line of this process and kind.
    pub(super) fn of(&mut self, pid: Pid, kind: u8) -> &mut Line {
        self.0.clear();
        self.pid(pid).byte(b'\t').byte(kind)
    }

    /// Begins a line with these bytes.
    pub(super) fn starting(&mut self, bytes: &[u8]) -> &mut Line {
        self.0.clear();
        self.bytes(bytes)
    }

    pub(super) fn byte(&mut self, byte: u8) -> &mut Line {
        self.0.push(byte);
        self
    }

    pub(super) fn bytes(&mut self, bytes: &[u8]) -> &mut Line {
        self.0.extend_from_slice(bytes);
        self
    }

    pub(super) fn pid(&mut self, pid: Pid) -> &mut Line {
        self.hex(u64::from(pid.node()) << 16 | u64::from(pid.number()), PID_DIGITS)
    }

    pub(super) fn number(&mut self, number: u64) -> &mut Line {
        self.hex(number, DIGITS)
    }

    fn hex(&mut self, number: u64, digits: usize) -> &mut Line {
        for digit in (0..digits).rev() {
            self.0.push(b"0123456789abcdef"[(number >> (4 * digit) & 15) as usize]);
        }
        self
    }

    pub(super) fn write(&mut self, out: &mut impl Write) -> io::Result<()> {
        self.0.push(b'\n');
        out.write_all(&self.0)
    }
}

/// The rest of a line that is read.
#[derive(Clone, Copy, Debug)]
pub(super) struct Rest<'a>(pub(super) &'a [u8]);

impl<'a> Rest<'a> {
    pub(super) fn skip(&mut self, byte: u8) -> Option<()> {
        (self.byte()? == byte).then_some(())
    }

    pub(super) fn byte(&mut self) -> Option<u8> {
        let (&byte, rest) = self.0.split_first()?;
        self.0 = rest;
        Some(byte)
    }

    pub(super) fn pid(&mut self) -> Option<Pid> {
        let bits = self.hex(PID_DIGITS)?;
        Some(Pid::on((bits >> 16) as u16, bits as u16))
    }

    pub(super) fn number(&mut self) -> Option<u64> {
        self.hex(DIGITS)
    }

    fn hex(&mut self, digits: usize) -> Option<u64> {
        let (front, rest) = self.0.split_at_checked(digits)?;
        self.0 = rest;
        front.iter().try_fold(0, |number, &byte| {
            let digit = char::from(byte).to_digit(16).filter(|_| !byte.is_ascii_uppercase())?;
            Some(number << 4 | u64::from(digit))
        })
    }

    /// Takes the bytes up to the next tab, or all if there is none.
    pub(super) fn word(&mut self) -> &'a [u8] {
        let end = memchr::memchr(b'\t', self.0).unwrap_or(self.0.len());
        let (word, rest) = self.0.split_at(end);
        self.0 = rest.get(1..).unwrap_or_default();
        word
    }

    pub(super) fn end(self) -> Option<()> {
        self.0.is_empty().then_some(())
    }
}

/// The number of lines of each kind, 0 to 3.
#[derive(Clone, Copy, Debug, Default, PartialEq, Eq)]
pub(super) struct Counts([u64; 4]);

impl Counts {
    /// Counts a line of this kind, one of the digits 0 to 3.
    pub(super) fn count(&mut self, kind: u8) {
        self.0[usize::from(kind - b'0') & 3] += 1;
    }

    pub(super) fn add(&mut self, other: Counts) {
        self.0.iter_mut().zip(other.0).for_each(|(sum, count)| *sum += count);
    }

    pub(super) fn events(&self) -> u64 {
        self.0[1]
    }

    pub(super) fn append_to(self, line: &mut Line) -> &mut Line {
        self.0.iter().fold(line, |line, &count| line.byte(b'\t').number(count))
    }

    pub(super) fn read(mut rest: Rest<'_>) -> Option<Counts> {
        let mut counts = Counts::default();
        for count in &mut counts.0 {
            rest.skip(b'\t')?;
            *count = rest.number()?;
        }
        rest.end()?;
        Some(counts)
    }
}
