//! The lines of the chosen events, which are written, and how many messages lose an end.

use super::part::Parts;
use super::selection::Selection;
use crate::pieces::{Entry, Reported};
use crate::view::Place;
use crate::Failure;
use gemshowal::{Event, Kind, MessageContent, Pid, Text};
use std::collections::{BTreeMap, HashMap, HashSet};
use std::io::{self, Write};

/// The messages of the chosen events.
#[derive(Default)]
pub(super) struct Ends {
    /// The sender and count of each message that is kept with both ends.
    stamps: HashSet<(Pid, u64)>,
    /// The others, each with how many sends and how many receives of it are chosen.
    chosen: HashMap<MessageContent, [u64; 2]>,
}

#[derive(Default)]
struct Own {
    count: u64,
    text: Vec<u8>,
}

#[derive(Default)]
pub(super) struct Kept {
    processes: BTreeMap<Pid, Own>,
    pub(super) events: u64,
    /// How many receives have a send, and sends a receive, that isn't kept.
    pub(super) open: [u64; 2],
    /// The places that were asked for, each with the event's index in what is kept.
    places: BTreeMap<Place, u64>,
}

impl Ends {
    pub(super) fn new(parts: &mut Parts, selection: &mut Selection<'_>) -> Result<Ends, Failure> {
        let mut ends = Ends::default();
        parts.walk(|line, before, entry| {
            let Entry::Event(reported) = entry else { return Ok(()) };
            let event = &reported.event;
            if !selection.takes(line, before, &reported)? {
                return Ok(());
            }
            if !selection.places.is_empty() {
                ends.stamps.insert(stamp(event));
            } else if event.kind != Kind::Print {
                let end = usize::from(event.kind == Kind::Receive);
                ends.chosen.entry(MessageContent::of(event)).or_default()[end] += 1;
            }
            Ok(())
        })?;
        selection.end()?;
        Ok(ends)
    }
}

fn stamp(event: &Event) -> (Pid, u64) {
    (event.from, event.serial.this)
}

impl Kept {
    pub(super) fn new(
        parts: &mut Parts,
        selection: &mut Selection<'_>,
        ends: &Ends,
    ) -> Result<Kept, Failure> {
        let mut kept = Kept::default();
        parts.walk(|line, before, entry| {
            let Entry::Event(reported) = entry else { return Ok(()) };
            if selection.takes(line, before, &reported)?
                || ends.stamps.contains(&stamp(&reported.event))
            {
                let now = kept.add(&reported);
                let place = (reported.pid, before + reported.index);
                kept.places.extend(selection.places.contains(&place).then_some((place, now)));
            } else {
                kept.count_open(&reported.event, ends);
            }
            Ok(())
        })?;
        selection.end()?;
        Ok(kept)
    }

    /// Adds an event, and returns its index in what is kept.
    fn add(&mut self, reported: &Reported<'_>) -> u64 {
        let event = &reported.event;
        for pid in [Some(event.from), event.to].into_iter().flatten() {
            self.processes.entry(pid).or_default();
        }
        let own = self.processes.entry(reported.pid).or_default();
        own.count += 1;
        own.text.extend_from_slice(reported.line);
        own.text.push(b'\n');
        self.events += 1;
        own.count - 1
    }

    /// Counts the chosen ends of a message that this event, which isn't kept, is the other end of.
    fn count_open(&mut self, event: &Event, ends: &Ends) {
        let Some([sends, receives]) = ends.chosen.get(&MessageContent::of(event)) else { return };
        match event.kind {
            Kind::Send => self.open[0] += receives,
            Kind::Receive => self.open[1] += sends,
            Kind::Print => {}
        }
    }

    pub(super) fn write(&self, out: &mut impl Write) -> io::Result<()> {
        let is_remote = self.processes.keys().any(|pid| pid.node() > 0);
        writeln!(out, "seqtrace {}", if is_remote { 2 } else { 1 })?;
        self.processes.iter().try_for_each(|(&pid, own)| {
            writeln!(out, "process {}", Text(pid))?;
            out.write_all(&own.text)
        })
    }

    /// Returns the places that were asked for, each with its index and its line in what is kept.
    pub(super) fn places(&self) -> impl Iterator<Item = (Pid, u64, u64, u64)> + '_ {
        self.places.iter().map(|(&(pid, index), &now)| {
            // Counts the header and the process lines above the event, too.
            let lines: u64 = self.processes.range(..pid).map(|(_, own)| 1 + own.count).sum();
            (pid, index, now, lines + now + 3)
        })
    }
}
