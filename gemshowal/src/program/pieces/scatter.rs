//! `scatter`: each event goes to its own process, and each receive also to its sender.

use super::reader::{walk, Entry, Reported};
use super::record::{Counts, Line, Place, COUNTS};
use crate::Failure;
use gemshowal::{Kind, Pid};
use std::io::{self, BufRead, Write};

/// How many receivers are remembered, so that their names aren't written again. It saves most of
/// these lines, and what it misses costs a line each.
const REMEMBERED: usize = 4096;

/// The filter: it writes to `out`, and its memory doesn't grow.
pub(super) struct Scatter<W> {
    out: W,
    line: Line,
    counts: Counts,
    named: Vec<Option<Pid>>,
}

impl<W: Write> Scatter<W> {
    pub(super) fn new(out: W) -> Scatter<W> {
        let named = vec![None; REMEMBERED];
        Scatter { out, line: Line::default(), counts: Counts::default(), named }
    }

    pub(super) fn events(&self) -> u64 {
        self.counts.events()
    }

    /// Takes a text, which is this part of the trace. Acts are passed over.
    pub(super) fn take(
        &mut self,
        part: u16,
        name: &str,
        input: impl BufRead,
        mut progress: impl FnMut(u64),
    ) -> Result<(), Failure> {
        walk(name, input, |_, entry| {
            match entry {
                Entry::Process(pid) => self.list(part, pid)?,
                Entry::Event(reported) => self.put(part, &reported)?,
                Entry::Act(_) => {}
            }
            progress(self.counts.events());
            Ok(())
        })
    }

    fn list(&mut self, part: u16, pid: Pid) -> io::Result<()> {
        self.counts.count(b'0');
        self.line.of(pid, b'0').number(Place::new(part, 0).0).write(&mut self.out)
    }

    fn put(&mut self, part: u16, reported: &Reported<'_>) -> io::Result<()> {
        let &Reported { pid, index, ref event, line: text } = reported;
        let place = Place::new(part, index);
        self.counts.count(b'1');
        self.line.of(pid, b'1').number(place.0).byte(b' ').bytes(text).write(&mut self.out)?;
        match (event.kind, event.to) {
            (Kind::Receive, _) => {
                self.counts.count(b'2');
                let line = self.line.of(event.from, b'2').number(event.serial.this);
                line.byte(b' ').pid(pid).byte(b' ').number(place.0).byte(b' ').bytes(text);
                line.write(&mut self.out)?;
            }
            (Kind::Send, Some(to)) => self.name(to)?,
            (Kind::Send | Kind::Print, _) => {}
        }
        Ok(())
    }

    /// Writes that an event names this process, if that isn't remembered.
    fn name(&mut self, pid: Pid) -> io::Result<()> {
        let slot = &mut self.named[usize::from(pid.number()) % REMEMBERED];
        if *slot != Some(pid) {
            *slot = Some(pid);
            self.counts.count(b'3');
            self.line.of(pid, b'3').write(&mut self.out)?;
        }
        Ok(())
    }

    pub(super) fn finish(mut self) -> io::Result<()> {
        self.counts.append_to(self.line.starting(COUNTS)).write(&mut self.out)?;
        self.out.flush()
    }
}
