//! `gather`: the verdict on the trace, from the lines of `judge`.

use super::record::{Counts, Place, Rest};
use super::walk_sorted;
use crate::reason::Against;
use crate::view::count;
use crate::{Ended, Failure, Status};
use gemshowal::{first_of, Never, Pid, PlacedReason, Text};
use std::collections::BTreeMap;
use std::io::{BufRead, Write};

/// A reason, and its events as the text of a trace has them.
struct Found {
    reason: PlacedReason,
    events: Vec<(Pid, Place, String)>,
}

/// The lines so far.
#[derive(Default)]
struct Gathered {
    /// A process that no text lists.
    unlisted: Option<Pid>,
    found: Option<Found>,
    /// For each process of the reason, the place after its last event in each part.
    parts: BTreeMap<Pid, Vec<Place>>,
    scattered: Counts,
    judged: Counts,
    /// How many runs of `scatter` have said their counts.
    scatters: u64,
    processes: u64,
    unreported: u64,
}

/// Reads sorted lines of `judge`, and writes the verdict as `seqtool complete` begins it.
pub(super) fn gather(name: &str, input: impl BufRead, out: &mut impl Write) -> Ended {
    let mut gathered = Gathered::default();
    walk_sorted(name, input, "judge", |line, _| Ok(gathered.take(Rest(line))))?;
    gathered.verdict(name, out)
}

impl Gathered {
    fn take(&mut self, mut rest: Rest<'_>) -> Option<()> {
        match rest.byte()? {
            b'0' => {
                let pid = rest.pid()?;
                self.unlisted.get_or_insert(pid);
                rest.end()
            }
            b'1' => self.take_reason(rest),
            b'2' => {
                let (pid, place) = (rest.pid()?, Place(rest.number()?));
                let mut events = self.found.iter().flat_map(|found| &found.events);
                if events.any(|&(other, ..)| other == pid) {
                    self.parts.entry(pid).or_default().push(place);
                }
                rest.end()
            }
            b'3' => {
                let is_judged = rest.byte()? == b'T';
                let sum = if is_judged { &mut self.judged } else { &mut self.scattered };
                sum.add(Counts::read(rest)?);
                self.scatters += u64::from(!is_judged);
                Some(())
            }
            b'4' => {
                self.processes += rest.number()?;
                self.unreported += rest.number()?;
                rest.end()
            }
            _ => None,
        }
    }

    fn take_reason(&mut self, mut rest: Rest<'_>) -> Option<()> {
        let word = rest.word();
        let mut events = Vec::new();
        while !rest.0.is_empty() {
            let (pid, place) = (rest.pid()?, Place(rest.number()?));
            rest.skip(b'\t')?;
            events.push((pid, place, String::from_utf8(rest.word().to_vec()).ok()?));
        }
        let &(pid, place, _) = events.first()?;
        let other = events.get(1).map(|&(pid, place, _)| (pid, place.0));
        let reason = PlacedReason { pid, index: place.0, never: never(word, other)? };
        let before = self.found.as_ref().map(|found| found.reason);
        if first_of(before, Some(reason)) == Some(reason) {
            self.found = Some(Found { reason, events });
        }
        Some(())
    }

    fn verdict(&self, name: &str, out: &mut impl Write) -> Ended {
        if let Some(pid) = self.unlisted {
            let words = format!("{} is named by an event, and no text lists it", Text(pid));
            return Err(Failure::Torn(words));
        }
        if self.scattered != self.judged || self.scatters == 0 {
            let words = "the lines aren't all that scatter wrote, or some are there twice";
            return Err(Failure::Torn(format!("{name}: {words}")));
        }
        if let Some(found) = &self.found {
            return self.write_never(found, out);
        }
        let (processes, events) = (self.processes, self.judged.events());
        let unreported = count(self.unreported, "unreported send");
        let sizes = format!("{}, {}", count(processes, "process"), count(events, "event"));
        writeln!(out, "fits {sizes}, {unreported}")?;
        Ok(Status::Yes)
    }

    fn write_never(&self, found: &Found, out: &mut impl Write) -> Ended {
        let PlacedReason { pid, index, never } = found.reason;
        let word = Against::by_complete(pid, index, never).word();
        let place = |&(pid, place, _): &_| format!(" {} {}", Text(pid), self.index(pid, place));
        let places: Vec<String> = found.events.iter().map(place).collect();
        writeln!(out, "never{} {word}{}", places[0], places[1..].concat())?;
        for (place, (.., event)) in places.iter().zip(&found.events) {
            writeln!(out, "event{place} {event}")?;
        }
        Ok(Status::No)
    }

    /// Returns the index of an event among all of its process.
    fn index(&self, pid: Pid, place: Place) -> u64 {
        let parts = self.parts.get(&pid).into_iter().flatten();
        let before = parts.filter(|end| end.part() < place.part()).map(|end| end.index());
        before.sum::<u64>() + place.index()
    }
}

/// Returns the reason of this word, which may name the place of a second event.
fn never(word: &[u8], other: Option<(Pid, u64)>) -> Option<Never> {
    Some(match (word, other) {
        (b"prevnotbefore", None) => Never::PrevNotBefore,
        (b"notrising", Some((_, index))) => Never::NotRising(index),
        (b"repeated", Some((pid, index))) => Never::Repeated(pid, index),
        (b"mismatch", Some((pid, index))) => Never::Mismatch(pid, index),
        (b"late", Some((_, index))) => Never::Late(index),
        (b"unfounded", None) => Never::Unfounded,
        (b"toohigh", None) => Never::TooHigh,
        _ => return None,
    })
}
