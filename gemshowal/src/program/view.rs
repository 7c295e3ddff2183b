//! A trace, or a part of one, with the names of its events: an event keeps its number in the whole
//! trace, whatever is cut off.

use crate::names::Names;
use gemshowal::{Completion, Event, Kind, Pid, Streams, Trace};
use std::borrow::Cow;
use std::collections::{BTreeMap, BTreeSet, HashMap};

/// The greatest number of a message's characters in a sentence or a drawing.
const CHARACTERS: usize = 80;

/// A process and the index of one of its events.
pub(crate) type Place = (Pid, u64);

/// For each process, the indices of the events that a part has.
pub(crate) type Kept = BTreeMap<Pid, Vec<u64>>;

/// A trace or a part of one, and the meaning of its numbers.
pub(crate) struct View<'a> {
    pub(crate) trace: &'a Trace,
    pub(crate) names: &'a Names,
    /// The numbers in the whole trace, unless these are the indices.
    numbers: Option<HashMap<Pid, Vec<u64>>>,
    /// Tells whether it was cut on purpose, so that what isn't here may have been reported.
    pub(crate) is_cut: bool,
}

impl<'a> View<'a> {
    pub(crate) fn whole(trace: &'a Trace, names: &'a Names) -> View<'a> {
        View { trace, names, numbers: None, is_cut: false }
    }

    pub(crate) fn part<'b>(&self, part: &'b Trace, kept: &Kept, is_cut: bool) -> View<'b>
    where
        'a: 'b,
    {
        let numbers = kept.iter().map(|(&pid, indices)| {
            (pid, indices.iter().map(|&index| self.number(pid, index)).collect())
        });
        View { trace: part, names: self.names, numbers: Some(numbers.collect()), is_cut }
    }

    /// Returns the number of an event in the whole trace.
    pub(crate) fn number(&self, pid: Pid, index: u64) -> u64 {
        let Some(numbers) = &self.numbers else { return index };
        let own = numbers.get(&pid).map_or(&[][..], |own| own);
        // Continues after the last index: the number comes after the last number.
        own.get(index as usize)
            .copied()
            .unwrap_or_else(|| own.last().map_or(index, |last| last + 1))
    }

    /// Returns the index here of the event with this number in the whole trace, if it is here.
    pub(crate) fn index(&self, pid: Pid, number: u64) -> Option<u64> {
        match &self.numbers {
            None => (number < self.trace.streams().len(pid)).then_some(number),
            Some(numbers) => {
                numbers.get(&pid)?.binary_search(&number).ok().map(|index| index as u64)
            }
        }
    }
}

pub(crate) struct Shown<'a> {
    pub(crate) streams: &'a Streams,
    pub(crate) view: &'a View<'a>,
    completion: Option<&'a Completion>,
    /// For each process of a completion the indices of its reported events.
    told: HashMap<Pid, Vec<u64>>,
}

impl<'a> Shown<'a> {
    pub(crate) fn reported(view: &'a View<'a>) -> Shown<'a> {
        let streams = view.trace.streams();
        Shown { streams, view, completion: None, told: HashMap::new() }
    }

    pub(crate) fn completed(view: &'a View<'a>, completion: &'a Completion) -> Shown<'a> {
        let streams = completion.streams();
        let told = |&pid: &Pid| {
            let all = 0..streams.len(pid);
            (pid, all.filter(|&index| completion.told(pid, index) == Some(true)).collect())
        };
        let told = streams.pids().iter().map(told).collect();
        Shown { streams, view, completion: Some(completion), told }
    }

    pub(crate) fn is_reported(&self, (pid, index): Place) -> bool {
        self.completion.is_none_or(|completion| completion.told(pid, index) == Some(true))
    }

    pub(crate) fn unlisted(&self) -> &[Pid] {
        self.completion.map_or(&[], |completion| completion.unlisted())
    }

    /// Returns the number of a process among the unlisted ones, or `None` if the trace lists it.
    pub(crate) fn stranger(&self, pid: Pid) -> Option<usize> {
        self.unlisted().binary_search(&pid).ok()
    }

    pub(crate) fn processes(&self) -> impl Iterator<Item = (Pid, &'a [Event])> {
        let streams = self.streams;
        streams.pids().iter().map(|&pid| (pid, streams.events(pid)))
    }

    pub(crate) fn process(&self, pid: Pid) -> Cow<'_, str> {
        match self.stranger(pid) {
            None => self.view.names.process(pid),
            Some(_) if self.unlisted().len() == 1 => "a process that the trace doesn't list".into(),
            Some(at) => format!("a process that the trace doesn't list {}", at + 1).into(),
        }
    }

    pub(crate) fn told(&self, pid: Pid) -> &[u64] {
        self.told.get(&pid).map_or(&[], |told| told)
    }

    pub(crate) fn event(&self, place: Place) -> String {
        format!("{}#{}", self.process(place.0), self.number(place))
    }

    /// Returns the number in an event's name. An added one counts from the next reported: `3~1`.
    pub(crate) fn number(&self, (pid, index): Place) -> String {
        if self.completion.is_none() {
            return self.view.number(pid, index).to_string();
        }
        let told = self.told(pid);
        match told.binary_search(&index) {
            Ok(place) => self.view.number(pid, place as u64).to_string(),
            Err(before) => {
                let last = before.checked_sub(1).and_then(|last| told.get(last));
                let which = index - last.map_or(0, |last| last + 1) + 1;
                format!("{}~{which}", self.view.number(pid, before as u64))
            }
        }
    }

    pub(crate) fn sentence(&self, event: &Event) -> String {
        self.sentence_of(event, &short(&self.view.names.brief(event.value)))
    }

    pub(crate) fn sentence_of_unknown(&self, event: &Event) -> String {
        self.sentence_of(event, "an unknown message")
    }

    fn sentence_of(&self, event: &Event, message: &str) -> String {
        let from = self.process(event.from);
        let to = event.to.map_or(Cow::Borrowed(""), |to| self.process(to));
        let happened = match event.kind {
            Kind::Send => format!("{from} sends {message} to {to}"),
            Kind::Receive => format!("{to} receives {message} from {from}"),
            Kind::Print => format!("{from} prints {message}"),
        };
        let label = self.view.names.label(event.label);
        format!("{happened}, serial {}, label {label}", gemshowal::Text(event.serial))
    }
}

/// Returns the processes that events are from or to, by rising pid.
pub(crate) fn ends<'a>(events: impl Iterator<Item = &'a Event>) -> Vec<Pid> {
    let ends = events.flat_map(|event| [Some(event.from), event.to]).flatten();
    ends.collect::<BTreeSet<_>>().into_iter().collect()
}

pub(crate) fn short(text: &str) -> Cow<'_, str> {
    match text.char_indices().nth(CHARACTERS) {
        None => text.into(),
        Some((end, _)) => format!("{}..", text.get(..end).unwrap_or_default()).into(),
    }
}

/// Writes a number with commas between thousands.
pub(crate) fn grouped(number: u64) -> String {
    let digits = number.to_string();
    let groups = digits.as_bytes().rchunks(3).rev().map(String::from_utf8_lossy);
    groups.collect::<Vec<_>>().join(",")
}

pub(crate) fn count(number: u64, thing: &str) -> String {
    match (number, thing) {
        (1, _) => format!("1 {thing}"),
        (_, "process") => format!("{} processes", grouped(number)),
        (_, "jump of a counter") => format!("{} jumps of counters", grouped(number)),
        _ => format!("{} {thing}s", grouped(number)),
    }
}
