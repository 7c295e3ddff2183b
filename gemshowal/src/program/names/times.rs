//! `NAME.times`: when each event happened, in nanoseconds, if its token had a flag for timestamps.
//! Behind the header a line is one of
//!
//! - `begin TIME`: when the first event happened, since 1970; negative if its node told no clock;
//! - `event PID I TIME`: how much later event I of the process happened;
//! - `message PID I PID J TIME`: how much later than send I its receive J was reported.
//!
//! A message between two nodes may seem to take less than no time, as far as their clocks differ.

use super::files::{number, open_lines};
use crate::output::Notes;
use crate::view::Place;
use crate::Failure;
use gemshowal::{Event, Kind, Trace};
use std::collections::{HashMap, HashSet};
use std::path::{Path, PathBuf};

const HEADER: &str = "seqaudit times 1";
const WANTED: &str = "an entry of NAME.times that no line before it has";

/// Nanoseconds.
pub(crate) type Time = i64;

#[derive(Debug, Default)]
pub(crate) struct Times {
    begin: Time,
    events: HashMap<Place, Time>,
    messages: HashMap<Place, (Place, Time)>,
}

/// `NAME.times`, which is read line by line.
pub(crate) struct TimesFile {
    pub(crate) file: PathBuf,
    pub(crate) begin: Time,
}

/// A line after those of the header and of the first event.
enum Entry {
    Event(Place, Time),
    Message { send: Place, receive: Place, time: Time },
}

impl Entry {
    fn read(line: &str) -> Option<Entry> {
        let place = |pid, index| Some((gemshowal::read_pid(pid)?, number(index)?));
        match line.split(' ').collect::<Vec<_>>()[..] {
            ["event", pid, index, at] => Some(Entry::Event(place(pid, index)?, time(at)?)),
            ["message", from, sent, to, received, took] => {
                let (send, receive) = (place(from, sent)?, place(to, received)?);
                Some(Entry::Message { send, receive, time: time(took)? })
            }
            _ => None,
        }
    }
}

impl TimesFile {
    pub(crate) fn beside(trace: &Path) -> Result<Option<TimesFile>, Failure> {
        let Some(file) = super::beside(trace, "times") else { return Ok(None) };
        let Some(mut lines) = open_lines(&file, HEADER)? else { return Ok(None) };
        let line = lines.next().transpose()?;
        match line.as_ref().and_then(|(_, line)| time(line.strip_prefix("begin ")?)) {
            Some(begin) => Ok(Some(TimesFile { file, begin })),
            None => Err(Failure::Wrong { file, line: 2, wanted: WANTED }),
        }
    }

    /// Takes each entry by a function, which says whether its subject is new.
    fn each(&self, mut take: impl FnMut(Entry) -> bool) -> Result<(), Failure> {
        for line in open_lines(&self.file, HEADER)?.into_iter().flatten().skip(1) {
            let (line, entry) = line?;
            if !Entry::read(&entry).is_some_and(&mut take) {
                return Err(Failure::Wrong { file: self.file.clone(), line, wanted: WANTED });
            }
        }
        Ok(())
    }

    /// Returns the events whose time after the first event is wanted.
    pub(crate) fn events(&self, is: impl Fn(Time) -> bool) -> Result<HashSet<Place>, Failure> {
        let mut events = HashSet::new();
        self.each(|entry| match entry {
            Entry::Event(place, time) if is(time) => events.insert(place),
            _ => true,
        })?;
        Ok(events)
    }
}

impl Times {
    /// Reads a file, unless its times are of another trace: one in which an event is gone, or was
    /// moved, has other events at their places.
    pub(super) fn read(
        file: &TimesFile,
        trace: &Trace,
        notes: &mut Notes,
    ) -> Result<Option<Times>, Failure> {
        let mut times = Times { begin: file.begin, ..Times::default() };
        file.each(|entry| match entry {
            Entry::Event(place, time) => times.events.insert(place, time).is_none(),
            Entry::Message { send, receive, time } => {
                times.messages.insert(receive, (send, time)).is_none()
            }
        })?;
        if times.may_be_of(trace) {
            return Ok(Some(times));
        }
        let file = file.file.display();
        notes.say(format_args!("note: {file} is of another trace, so no times are shown"));
        Ok(None)
    }

    fn may_be_of(&self, trace: &Trace) -> bool {
        let event = |&(pid, index): &Place| trace.streams().event(pid, index);
        self.events.keys().all(|place| event(place).is_some())
            && self.messages.iter().all(|(receive, (send, _))| {
                let (send, receive) = (event(send), event(receive));
                send.zip(receive).is_some_and(|(send, receive)| are_ends(&send, &receive))
            })
    }

    /// Returns the time of the first event, since 1970, if its node told.
    pub(crate) fn begin(&self) -> Option<Time> {
        (self.begin >= 0).then_some(self.begin)
    }

    /// Returns how much later than the first one an event happened.
    pub(crate) fn of_event(&self, place: Place) -> Option<Time> {
        self.events.get(&place).copied()
    }

    pub(crate) fn count(&self) -> usize {
        self.events.len()
    }

    /// Returns the times of the first event and of the last one; 0 if there are none.
    pub(crate) fn ends(&self) -> (Time, Time) {
        let times = || self.events.values().copied();
        (times().min().unwrap_or(0), times().max().unwrap_or(0))
    }

    /// Returns the send of a receive, and the time from the one to the other.
    pub(crate) fn of_message(&self, receive: Place) -> Option<(Place, Time)> {
        self.messages.get(&receive).copied()
    }
}

fn are_ends(send: &Event, receive: &Event) -> bool {
    (send.kind, receive.kind) == (Kind::Send, Kind::Receive)
        && (send.from, send.label) == (receive.from, receive.label)
        && (send.serial, send.value) == (receive.serial, receive.value)
}

/// Reads a number, maybe with a minus. The least one is refused, so that each has its opposite.
fn time(word: &str) -> Option<Time> {
    let size = number(word.strip_prefix('-').unwrap_or(word))?;
    let size = Time::try_from(size).ok()?;
    Some(if word.starts_with('-') { -size } else { size })
}
