//! Finds what may explain a serial that nothing its process had gives. The first that applies is
//! said, and none of them is certain.

use super::judged::{event_at, Judged};
use crate::names::Names;
use crate::view::{count, short, Place};
use gemshowal::{signed, Event, Kind, NodeTrace, Pid, Serial, COUNTS};
use std::collections::HashMap;

/// The greatest number of counts that unreported sends and prints are said to have taken. Beyond it
/// the counter rather jumped, as at a spawn.
const MOST_MISSING: u64 = 1_000_000;

pub(super) fn serial_text(serial: Serial) -> String {
    format!("{{{},{}}}", signed(serial.prev), signed(serial.this))
}

pub(super) struct Explainer<'a> {
    trace: &'a NodeTrace,
    names: &'a Names,
    /// A send without a reported receive, by receiver and count.
    by_count: HashMap<(Pid, u64), Place>,
    /// A send without a reported receive, by receiver and serial.
    by_serial: HashMap<(Pid, u64, u64), Place>,
}

impl<'a> Explainer<'a> {
    pub(super) fn new(trace: &'a NodeTrace, names: &'a Names, waiting: &[Place]) -> Explainer<'a> {
        let (mut by_count, mut by_serial) = (HashMap::new(), HashMap::new());
        for &place in waiting {
            let Some(event) = event_at(trace, place) else { continue };
            let (Serial { prev, this }, Some(to)) = (event.serial, event.to) else { continue };
            by_count.entry((to, this)).or_insert(place);
            by_serial.entry((to, prev, this)).or_insert(place);
        }
        Explainer { trace, names, by_count, by_serial }
    }

    /// Says what may explain this event.
    pub(super) fn explanation(&self, place: Place, judged: &Judged) -> String {
        let Some(event) = event_at(self.trace, place) else { return String::new() };
        if event.kind == Kind::Receive {
            let sender = self.names.process(event.from);
            return format!("nothing that {sender} had gives its send, which wasn't reported");
        }
        let process = self.names.process(place.0);
        if let Some(missing) = self.missing_counts(place, event.serial) {
            let counts = count(missing, "count");
            return format!(
                "{counts} before it that no event here has: what {process} may have sent or \
                 printed unreported"
            );
        }
        if let Some(send) = self.unreported_receive(place.0, event.serial) {
            return format!("the receive of {} wasn't reported", self.message(send));
        }
        let other = match judged.elsewhere.get(&place) {
            Some(&holder) => format!(
                "; the token of {}, {} of the same label, does: was it handed over?",
                self.names.event(holder),
                serial_text(before(event.serial))
            ),
            None if judged.is_late() && self.may_have_saved(place.0) => {
                ", unless it put back a token from before the trace".into()
            }
            None => String::new(),
        };
        format!("nothing that {process} had gives it{other}")
    }

    /// Returns whether a process may have saved a token before a trace that began late.
    pub(super) fn may_have_saved(&self, pid: Pid) -> bool {
        !self.trace.is_spawned(pid)
    }

    /// Returns whether a message whose receive wasn't reported may explain the serial.
    pub(super) fn has_message(&self, place: Place) -> bool {
        event_at(self.trace, place)
            .is_some_and(|event| self.unreported_receive(place.0, event.serial).is_some())
    }

    /// Says what may explain this receive, whose send wasn't reported.
    pub(super) fn unsent(&self, place: Place) -> String {
        let Some(event) = event_at(self.trace, place) else { return String::new() };
        let message = self.names.brief(event.value);
        format!(
            "the send of {} by {} wasn't reported",
            short(&message),
            self.names.process(event.from)
        )
    }

    /// Returns how many counts are missing between the counter before a stamp and the stamp, if
    /// nothing else is.
    fn missing_counts(&self, (pid, index): Place, serial: Serial) -> Option<u64> {
        let events = &self.trace.trace().streams().events(pid)[..index as usize];
        let is_stamp = |event: &Event| event.kind != Kind::Receive;
        let first = events.iter().rposition(is_stamp).unwrap_or(0);
        let (mut clock, mut last) = (0, 0);
        for (event, index) in events[first..].iter().zip(first as u64..) {
            let Serial { prev, this } = event.serial;
            (clock, last) = match event.kind {
                Kind::Send | Kind::Print => (this, prev),
                Kind::Receive if self.trace.is_answer((pid, index)) => {
                    let answered = (this * 16 + 15) % COUNTS;
                    (answered, answered)
                }
                Kind::Receive => (clock.max(this), this),
            };
        }
        let missing = serial.this.wrapping_sub(clock + 1) % COUNTS;
        (last == serial.prev && (1..=MOST_MISSING).contains(&missing)).then_some(missing)
    }

    /// Returns a message to the process that brings the serial's prev, or of which the serial's
    /// token is the next.
    fn unreported_receive(&self, pid: Pid, serial: Serial) -> Option<Place> {
        let token = before(serial);
        let next = || self.by_serial.get(&(pid, token.prev, token.this));
        self.by_count.get(&(pid, serial.prev)).or_else(next).copied()
    }

    fn message(&self, send: Place) -> String {
        let value = event_at(self.trace, send).map(|event| event.value);
        let message = value.map(|value| short(&self.names.brief(value)).into_owned());
        format!("{} ({})", self.names.event(send), message.unwrap_or_default())
    }
}

/// Returns the serial of the token that a stamp made this of.
fn before(serial: Serial) -> Serial {
    Serial { prev: serial.prev, this: serial.this.wrapping_sub(1) % COUNTS }
}
