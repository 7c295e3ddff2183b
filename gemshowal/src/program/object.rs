//! Events and numbers as JSON.

use crate::names::Names;
use crate::view::Shown;
use gemshowal::{Event, Kind, Pid, Text};
use serde::{Serialize, Serializer};

/// The greatest number that every reader of JSON keeps exactly.
pub(crate) const EXACT: u64 = 1 << 53;

/// Serializes an object with these fields, in their order.
macro_rules! object {
    ($serializer:expr, $($name:literal: $value:expr),* $(,)?) => {{
        let mut object = $serializer.serialize_map(None)?;
        $(object.serialize_entry($name, &$value)?;)*
        object.end()
    }};
}
pub(crate) use object;

/// A number; one that a reader may round is a string.
#[derive(Clone, Copy, Debug, PartialEq, Eq)]
pub(crate) struct Number(pub(crate) u64);

impl Serialize for Number {
    fn serialize<S: Serializer>(&self, serializer: S) -> Result<S::Ok, S::Error> {
        match self.0 > EXACT {
            true => serializer.collect_str(&self.0),
            false => serializer.serialize_u64(self.0),
        }
    }
}

type Made<'a, T> = Box<dyn Iterator<Item = T> + 'a>;

/// A sequence that is made while it is written.
pub(crate) struct Sequence<'a, T>(Box<dyn Fn() -> Made<'a, T> + 'a>);

impl<'a, T> Sequence<'a, T> {
    pub(crate) fn of<I: Iterator<Item = T> + 'a>(make: impl Fn() -> I + 'a) -> Sequence<'a, T> {
        Sequence(Box::new(move || Box::new(make())))
    }

    pub(crate) fn iter(&self) -> Made<'a, T> {
        (self.0)()
    }
}

impl<T: Serialize> Serialize for Sequence<'_, T> {
    fn serialize<S: Serializer>(&self, serializer: S) -> Result<S::Ok, S::Error> {
        serializer.collect_seq(self.iter())
    }
}

/// A process and the index of one of its events, with the event's name.
#[derive(Clone, Debug, Serialize)]
pub(crate) struct Place {
    pub(crate) event: String,
    pub(crate) pid: Text<Pid>,
    pub(crate) index: u64,
}

impl Place {
    pub(crate) fn shown(shown: &Shown<'_>, place: (Pid, u64)) -> Place {
        Place { event: shown.event(place), ..Place::new(shown.view.names, place) }
    }

    pub(crate) fn new(names: &Names, (pid, index): (Pid, u64)) -> Place {
        Place { event: names.event((pid, index)), pid: Text(pid), index }
    }
}

/// The fields of an event, in numbers, and with the terms that these stand for if there are some.
#[derive(Clone, Debug, Serialize)]
pub(crate) struct Fields {
    kind: &'static str,
    label: u32,
    #[serde(skip_serializing_if = "Option::is_none")]
    term: Option<String>,
    prev: Number,
    this: Number,
    from: Text<Pid>,
    #[serde(skip_serializing_if = "Option::is_none")]
    to: Option<Text<Pid>>,
    value: Number,
    #[serde(skip_serializing_if = "Option::is_none")]
    message: Option<String>,
}

impl Fields {
    pub(crate) fn new(names: &Names, event: &Event) -> Fields {
        let has_terms = names.has_terms();
        Fields {
            kind: kind_word(event.kind),
            label: event.label.0,
            term: has_terms.then(|| names.label(event.label).into_owned()),
            prev: Number(event.serial.prev),
            this: Number(event.serial.this),
            from: Text(event.from),
            to: event.to.map(Text),
            value: Number(event.value),
            message: has_terms.then(|| names.brief(event.value).into_owned()),
        }
    }
}

/// Returns the letter of an event, the first of its word.
pub(crate) fn kind_letter(kind: Kind) -> char {
    char::from(kind_word(kind).as_bytes()[0])
}

pub(crate) fn kind_word(kind: Kind) -> &'static str {
    match kind {
        Kind::Send => "send",
        Kind::Receive => "receive",
        Kind::Print => "print",
    }
}
