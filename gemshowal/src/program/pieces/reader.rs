//! A text of a trace, line by line: no more of it is remembered than the next line needs.

use super::{Lines, Next};
use crate::{lint, Failure};
use gemshowal::{read_number, read_pid, Event, Kind, Label, Pid, ReadFault, Serial};
use std::io::BufRead;

/// A line after the header, but for `acts`.
pub(crate) enum Entry<'a> {
    Process(Pid),
    Event(Reported<'a>),
    /// An act: these processes have to be listed.
    Act(&'a [Pid]),
}

pub(crate) struct Reported<'a> {
    pub(crate) pid: Pid,
    /// The number of the process's events before it.
    pub(crate) index: u64,
    pub(crate) event: Event,
    pub(crate) line: &'a [u8],
}

/// The lines so far.
#[derive(Default)]
struct Text {
    /// The header was `seqtrace 2`.
    is_wide: bool,
    /// A line named a pid of another node than 0.
    is_remote: bool,
    /// The process of the last process line.
    last: Option<Pid>,
    /// The number of its events.
    index: u64,
    has_acts: bool,
}

/// Reads a text, and hands on each line with its number. That all pids are listed isn't looked at.
pub(crate) fn walk(
    name: &str,
    input: impl BufRead,
    mut each: impl FnMut(u64, Entry<'_>) -> Result<(), Failure>,
) -> Result<(), Failure> {
    let faulty = |fault: ReadFault| Failure::Faulty(name.to_owned(), format!(": {fault}"));
    let mut text = Text::default();
    let mut lines = Lines::new(input);
    loop {
        let number = lines.number + 1;
        match lines.next().map_err(|reason| Failure::Unread(name.to_owned(), reason))? {
            Next::Line(line) if number == 1 => text.begin(line).map_err(faulty)?,
            Next::Line(line) if text.has_acts => {
                let (pids, listed) = text.act(number, line).map_err(faulty)?;
                each(number, Entry::Act(&pids[..listed]))?;
            }
            Next::Line(b"acts") => text.has_acts = true,
            Next::Line(line) => each(number, text.entry(number, line).map_err(faulty)?)?,
            Next::End if number > 1 => return text.end().map_err(faulty),
            Next::End | Next::Torn => return Err(faulty(ReadFault::Truncated)),
        }
    }
}

impl Text {
    fn begin(&mut self, header: &[u8]) -> Result<(), ReadFault> {
        self.is_wide = header == b"seqtrace 2";
        (self.is_wide || header == b"seqtrace 1").then_some(()).ok_or(ReadFault::Line(1))
    }

    /// Refuses a needless header of several nodes.
    fn end(&self) -> Result<(), ReadFault> {
        (self.is_remote || !self.is_wide).then_some(()).ok_or(ReadFault::Line(1))
    }

    fn entry<'a>(&mut self, number: u64, line: &'a [u8]) -> Result<Entry<'a>, ReadFault> {
        let Some(event) = read_event(line) else {
            let pid = line.strip_prefix(b"process ").and_then(read_pid);
            return self.open(number, pid.ok_or(ReadFault::Line(number))?);
        };
        self.name(number, event.from)?;
        event.to.map_or(Ok(()), |to| self.name(number, to))?;
        let pid = self.last.ok_or(ReadFault::Line(number))?;
        if !event.is_own(pid) {
            return Err(ReadFault::Foreign(number));
        }
        self.index += 1;
        Ok(Entry::Event(Reported { pid, index: self.index - 1, event, line }))
    }

    fn open(&mut self, number: u64, pid: Pid) -> Result<Entry<'static>, ReadFault> {
        self.name(number, pid)?;
        if self.last.replace(pid).is_some_and(|last| last >= pid) {
            return Err(ReadFault::Order(number));
        }
        self.index = 0;
        Ok(Entry::Process(pid))
    }

    fn act(&mut self, number: u64, line: &[u8]) -> Result<(lint::Pids, usize), ReadFault> {
        let (pids, listed) = lint::read_act(line).ok_or(ReadFault::Line(number))?;
        pids.iter().try_for_each(|&pid| self.name(number, pid))?;
        Ok((pids, listed))
    }

    /// Refuses a pid of another node under the header of one node.
    fn name(&mut self, number: u64, pid: Pid) -> Result<(), ReadFault> {
        self.is_remote |= pid.node() > 0;
        (self.is_wide || pid.node() == 0).then_some(()).ok_or(ReadFault::Line(number))
    }
}

/// Reads the line of an event, by the proved readers of its words.
pub(super) fn read_event(line: &[u8]) -> Option<Event> {
    let inside = line.strip_prefix(b"{seq_trace,")?.strip_suffix(b"}}")?;
    let mut words = inside.split(|&byte| byte == b',');
    let [label, kind, prev, this, from, to, value] =
        std::array::from_fn(|_| words.next().unwrap_or_default());
    let (kind, to) = match (kind, to) {
        (b"{send", _) => (Kind::Send, Some(read_pid(to)?)),
        (b"{'receive'", _) => (Kind::Receive, Some(read_pid(to)?)),
        (b"{print", b"[]") => (Kind::Print, None),
        _ => return None,
    };
    let serial = Serial {
        prev: read_number(prev.strip_prefix(b"{")?)?,
        this: read_number(this.strip_suffix(b"}")?)?,
    };
    let label = Label(read_number(label)?.try_into().ok()?);
    let (from, value) = (read_pid(from)?, read_number(value)?);
    words.next().is_none().then_some(Event { label, kind, to, from, serial, value })
}
