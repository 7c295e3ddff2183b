//! The reasons why no run reports a trace, for an event of it: in sentences, and as JSON.

use crate::object::{Fields, Place as PlaceObject};
use crate::view::{Place, Shown, View};
use crate::Failure;
use gemshowal::{Event, Never, PairError, Paired, Pid};
use serde::Serialize;
use std::fmt::{self, Display, Formatter};

/// An event, the reason against it, and the second event that this may be about.
#[derive(Clone, Copy, Debug)]
pub(crate) struct Against {
    pub(crate) place: Place,
    pub(crate) never: Never,
}

impl Against {
    pub(crate) fn by_complete(pid: Pid, index: u64, never: Never) -> Against {
        Against { place: (pid, index), never }
    }

    pub(crate) fn other(&self) -> Option<Place> {
        match self.never {
            Never::NotRising(index) | Never::Late(index) => Some((self.place.0, index)),
            Never::Repeated(pid, index) | Never::Mismatch(pid, index) => Some((pid, index)),
            Never::PrevNotBefore | Never::Unfounded | Never::TooHigh => None,
        }
    }

    pub(crate) fn word(&self) -> &'static str {
        match self.never {
            Never::PrevNotBefore => "prevnotbefore",
            Never::NotRising(_) => "notrising",
            Never::Repeated(..) => "repeated",
            Never::Mismatch(..) => "mismatch",
            Never::Late(_) => "late",
            Never::Unfounded => "unfounded",
            Never::TooHigh => "toohigh",
        }
    }

    /// Returns whether a run with a reset may have the trace all the same.
    pub(crate) fn allows_reset(&self) -> bool {
        self.never != Never::PrevNotBefore
    }

    pub(crate) fn headline(&self, view: &View<'_>) -> String {
        let without = if self.allows_reset() { " without a reset" } else { "" };
        let (event, word) = (Shown::reported(view).event(self.place), self.word());
        format!("doesn't fit: no run{without} reports this trace, because of {event} ({word})")
    }

    pub(crate) fn no(&self, view: &View<'_>) -> No {
        No { headline: self.headline(view), refused: self.refused(view, false) }
    }

    /// Shows the events, what it means that they don't go together, and what to look at: tokens that
    /// were put back and resets too, unless the rules of a standard node have been asked.
    pub(crate) fn refused(&self, view: &View<'_>, is_asked: bool) -> Refused {
        let shown = Shown::reported(view);
        let places = [Some(self.place), self.other()].into_iter().flatten();
        let with_event = |place: Place| Some((place, shown.streams.event(place.0, place.1)?));
        let (places, events): (Vec<Place>, Vec<Event>) = places.filter_map(with_event).unzip();
        let found = |(&place, event): (&Place, &Event)| Found {
            place: PlaceObject::shown(&shown, place),
            fields: Fields::new(view.names, event),
            what: shown.sentence(event),
        };
        let mut look_at = causes(self.never, &events).to_vec();
        look_at.retain(|cause| !is_asked || !MOVES_COUNTERS.contains(cause));
        Refused {
            reason: self.word(),
            found: places.iter().zip(&events).map(found).collect(),
            meaning: meaning(self.never),
            look_at: look_at.join("; "),
        }
    }
}

/// The sentence that no run reports a trace, and why.
#[derive(Clone, Debug, Serialize)]
pub(crate) struct No {
    pub(crate) headline: String,
    #[serde(flatten)]
    refused: Refused,
}

impl Display for No {
    fn fmt(&self, f: &mut Formatter<'_>) -> fmt::Result {
        write!(f, "{}\n{}", self.headline, self.refused)
    }
}

#[derive(Clone, Debug, Serialize)]
pub(crate) struct Refused {
    reason: &'static str,
    found: Vec<Found>,
    meaning: &'static str,
    look_at: String,
}

impl Display for Refused {
    fn fmt(&self, f: &mut Formatter<'_>) -> fmt::Result {
        for Found { place, what, .. } in &self.found {
            writeln!(f, "  {}: {what}", place.event)?;
        }
        writeln!(f, "What it means: {}\nWhat to look at: {}.", self.meaning, self.look_at)
    }
}

#[derive(Clone, Debug, Serialize)]
struct Found {
    #[serde(flatten)]
    place: PlaceObject,
    #[serde(flatten)]
    fields: Fields,
    what: String,
}

/// Pairs the events of a trace, or fails with the sentences that say why they can't be.
pub(crate) fn paired<'a>(view: &View<'a>) -> Result<Paired<'a>, Failure> {
    Paired::of(view.trace.streams()).map_err(|error| match error {
        PairError::Memory(error) => error.into(),
        PairError::Never(pid, index, never) => {
            Failure::Never(Box::new(Against::by_complete(pid, index, never).no(view)))
        }
    })
}

fn meaning(never: Never) -> &'static str {
    match never {
        Never::PrevNotBefore => {
            "the first number of an event's serial isn't below its second, so the counter of \
             its process went back behind what the process had received, or the file was \
             changed."
        }
        Never::NotRising(_) => {
            "one process stamped both events, and the later one has no higher count: its \
             counter went back, or the two are in the wrong order."
        }
        Never::Repeated(..) => {
            "two messages were received that have the same sender and the same count, so the \
             sender's counter went back between them, or one message is here twice, or the \
             file was changed."
        }
        Never::Mismatch(..) => {
            "what was received isn't what its sender sent with this count: so these are two \
             messages, and the sender's counter went back between them, or the file was \
             changed."
        }
        Never::Late(_) => {
            "the process had received a message with this count or a higher one before, and a \
             process counts on from the highest count that it has received: so its counter \
             went back between the two, or they are in the wrong order, or the file was \
             changed."
        }
        Never::Unfounded => {
            "by its serial the event follows nothing, but the process that sent or printed it \
             had received a message of a trace before, or had sent or printed something that \
             follows one."
        }
        Never::TooHigh => "the event counts higher than a counter can.",
    }
}

// The causes that a trace which doesn't fit may have.
const PUT_BACK: &str = "a token that set_token/1 put back (Old = seq_trace:set_token([]), .., \
     seq_trace:set_token(Old)) would explain it: that moves the counter of a standard node back to \
     what the token had";
const PUT_BACK_EARLY: &str =
    "a token that set_token/1 put back before anything was sent with it would explain it: that sets \
     the counter of a standard node to 0";
const SET_BY_HAND: &str = "a token's serial that was set by hand";
const RESET: &str = "seq_trace:reset_trace/0 between the two";
const RESET_BEFORE: &str = "seq_trace:reset_trace/0 before the event";
const TWO_RUNS: &str = "files of two runs converted as one";
const COLLECTED_TWICE: &str =
    "events that were collected twice, by a second tracer or by files of the same run";
/// The causes that the rules of a standard node know of.
const MOVES_COUNTERS: [&str; 5] = [PUT_BACK, PUT_BACK_EARLY, RESET, RESET_BEFORE, TWO_RUNS];
const OTHER_ORDER: &str = "events of one process that are in another order than they happened in";
const CHANGED: &str = "a file that was changed";
const WRONG_PROCESS: &str =
    "sends to aliases and names, which may be taken for sends to the wrong process (NAME.notes)";

/// Returns the likeliest cause first, as far as the events tell it.
fn causes(never: Never, found: &[Event]) -> &'static [&'static str] {
    let are_copies = matches!(found, [one, other] if one == other);
    let are_apart = matches!(found, [one, other] if other.to.is_some() && one.to != other.to);
    match never {
        Never::PrevNotBefore => &[PUT_BACK_EARLY, CHANGED, SET_BY_HAND],
        Never::NotRising(_) | Never::Repeated(..) if are_copies => {
            &[COLLECTED_TWICE, TWO_RUNS, RESET, PUT_BACK, CHANGED]
        }
        Never::NotRising(_) => &[RESET, TWO_RUNS, PUT_BACK, OTHER_ORDER],
        Never::Repeated(..) => &[RESET, TWO_RUNS, PUT_BACK, CHANGED, WRONG_PROCESS],
        Never::Mismatch(..) if are_apart => &[WRONG_PROCESS, CHANGED, RESET, TWO_RUNS, PUT_BACK],
        Never::Mismatch(..) => &[CHANGED, WRONG_PROCESS, RESET, TWO_RUNS, PUT_BACK],
        Never::Late(_) => &[RESET, TWO_RUNS, OTHER_ORDER, PUT_BACK, CHANGED],
        Never::Unfounded => &[PUT_BACK, CHANGED, TWO_RUNS, RESET_BEFORE],
        Never::TooHigh => &[CHANGED, SET_BY_HAND],
    }
}
