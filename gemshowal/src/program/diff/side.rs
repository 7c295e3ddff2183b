//! A trace as it is compared: its events as numbers, which two events have in common if they are
//! alike but for pids and counts.

use crate::names::Names;
use gemshowal::{Event, Kind, Pid, Trace};
use std::borrow::Cow;
use std::collections::HashMap;

/// The number of an event's kind, label and value.
pub(super) type Item = u32;

pub(super) const NOBODY: u32 = u32::MAX;

/// The term of a label or a value, or its number if it has none.
#[derive(Debug, Hash, PartialEq, Eq)]
enum Word<'a> {
    Number(u64),
    Term(Cow<'a, str>),
}

pub(super) struct Vocabulary<'a> {
    /// Label and kind, and value. Label and value are numbers of the traces, or of `words`.
    items: HashMap<(u64, u64), Item>,
    words: HashMap<Word<'a>, u64>,
    has_terms: bool,
}

impl<'a> Vocabulary<'a> {
    /// Makes an empty vocabulary, in which labels and values are compared by their terms, or by
    /// their numbers. It has room for half of the events, since a message is at both its ends.
    pub(super) fn new(has_terms: bool, events: usize) -> Vocabulary<'a> {
        let items = HashMap::with_capacity(events / 2);
        Vocabulary { items, words: HashMap::new(), has_terms }
    }

    fn item(&mut self, kind: Kind, label: u64, value: u64) -> Item {
        let next = self.items.len() as Item;
        *self.items.entry((label << 2 | kind as u64, value)).or_insert(next)
    }

    fn word(&mut self, term: Option<&'a str>, number: u64) -> u64 {
        let word = term.map_or(Word::Number(number), |term| Word::Term(without_numbers(term)));
        let next = self.words.len() as u64;
        *self.words.entry(word).or_insert(next)
    }

    fn item_of(&mut self, event: &Event, names: &'a Names) -> Item {
        let (label, value) = (event.label.0.into(), event.value);
        if !self.has_terms {
            return self.item(event.kind, label, value);
        }
        let label = self.word(term(names.label(event.label)), label);
        let value = self.word(names.term(event.value), value);
        self.item(event.kind, label, value)
    }
}

/// Returns a name that a file has. A name that is made of a number is owned.
pub(super) fn term(name: Cow<'_, str>) -> Option<&str> {
    match name {
        Cow::Borrowed(term) => Some(term),
        Cow::Owned(_) => None,
    }
}

/// Returns a term without the numbers of its references, pids and ports, which differ by run.
fn without_numbers(term: &str) -> Cow<'_, str> {
    let is_number = |text: &str| text.bytes().all(|byte| byte.is_ascii_digit() || byte == b'.');
    let mut parts = term.split('<');
    let Some(front) = parts.next().filter(|front| front.len() < term.len()) else {
        return Cow::Borrowed(term);
    };
    let mut bare = String::from(front);
    for part in parts {
        bare.push('<');
        bare.push_str(match part.split_once('>') {
            Some((inside, _)) if is_number(inside) => &part[inside.len()..],
            _ => part,
        });
    }
    Cow::Owned(bare)
}

pub(super) struct Side<'a> {
    trace: &'a Trace,
    /// The items of each process.
    pub(super) items: Vec<Vec<Item>>,
    /// For each event of each process the place of the process at its other end, or `NOBODY`.
    pub(super) peers: Vec<Vec<u32>>,
}

impl<'a> Side<'a> {
    pub(super) fn new(trace: &'a Trace, names: &'a Names, words: &mut Vocabulary<'a>) -> Side<'a> {
        let mut process = |(_, events): (Pid, &[Event])| -> (Vec<Item>, Vec<u32>) {
            let item = |event| (words.item_of(event, names), peer_of(trace, event));
            events.iter().map(item).unzip()
        };
        let (items, peers) = trace.processes().map(&mut process).unzip();
        Side { trace, items, peers }
    }

    pub(super) fn len(&self) -> usize {
        self.trace.streams().pids().len()
    }

    pub(super) fn total(&self) -> usize {
        self.trace.streams().total() as usize
    }

    pub(super) fn pids(&self) -> &'a [Pid] {
        self.trace.streams().pids()
    }

    pub(super) fn place_of(&self, pid: Pid) -> Option<usize> {
        self.trace.streams().place_of(pid)
    }

    pub(super) fn events(&self, place: usize) -> &'a [Event] {
        self.trace.streams().events(self.pids()[place])
    }

    pub(super) fn items_with(&self, place: usize, of_peer: impl Fn(u32) -> u32) -> Vec<u64> {
        let events = self.items[place].iter().zip(&self.peers[place]);
        events.map(|(&item, &peer)| u64::from(item) << 32 | u64::from(of_peer(peer))).collect()
    }

    /// Returns the places of processes by when they first report something; silent ones come last.
    pub(super) fn order(&self) -> Vec<usize> {
        let mut order = Vec::from_iter(0..self.len());
        order.sort_by_key(|&place| {
            let first = self.events(place).first();
            let begun = first.map(|event| (event.serial.this, event.kind == Kind::Receive));
            (begun.is_none(), begun)
        });
        order
    }
}

fn peer_of(trace: &Trace, event: &Event) -> u32 {
    let pid = match event.kind {
        Kind::Send => event.to,
        Kind::Receive => Some(event.from),
        Kind::Print => None,
    };
    pid.and_then(|pid| trace.streams().place_of(pid)).map_or(NOBODY, |place| place as u32)
}
