//! The spans of OpenTelemetry that a trace tells of.
//!
//! A label is one span, from its first event to its last: nothing of it is outside, so that a
//! message whose send wasn't reported has its place too. Below it are the messages and the work of
//! processes. A span is below the nearest one on the way back from it that doesn't end before it;
//! the one that it follows directly is linked if it is below another.

use super::scene::{Place, Scene, Table};
use super::work::{role, Calls, Role, Work, Works};
use crate::causes::Cause;
use crate::Failure;
use gemshowal::{Event, Kind, Label, Partner};
use std::collections::BTreeMap;

/// The kinds of spans, by their numbers in `opentelemetry/proto/trace/v1`.
#[derive(Clone, Copy, Debug, PartialEq, Eq)]
pub(super) enum About {
    /// The events of a label, from its first event on: internal.
    Label = 1,
    /// The work of a process for the request of a call that it received here: of a server.
    Service = 2,
    /// The call whose request was sent here: of a client.
    Call = 3,
    /// The message that was sent here: of a producer.
    Message = 4,
    /// The work of a process for the message that it received here: of a consumer.
    Work = 5,
}

/// A span, with times in nanoseconds after the first event.
#[derive(Clone, Copy, Debug)]
pub(super) struct Span {
    pub(super) about: About,
    pub(super) place: Place,
    pub(super) label: Label,
    pub(super) start: i64,
    pub(super) end: i64,
    /// The number of the span that it is below; none of a label.
    pub(super) parent: Option<u32>,
    /// The number of the span that it follows directly, unless that is the parent.
    pub(super) follows: Option<u32>,
}

pub(super) struct Spans<'a> {
    pub(super) scene: &'a Scene<'a>,
    pub(super) calls: Calls,
    works: Works,
    pub(super) all: Vec<Span>,
    labels: BTreeMap<u32, u32>,
    /// For each event the number of the span that it begins.
    begun: Table<u32>,
    pub(super) prints: Vec<(u32, Place)>,
}

impl<'a> Spans<'a> {
    pub(super) fn of(scene: &'a Scene<'a>) -> Result<Spans<'a>, Failure> {
        let calls = Calls::of(scene);
        let works = Works::of(scene, &calls);
        let (begun, labels) = (Table::of(scene), BTreeMap::new());
        let (all, prints) = (Vec::new(), Vec::new());
        let mut spans = Spans { scene, calls, works, all, labels, begun, prints };
        let order = scene.in_order()?;
        spans.add_labels(&order);
        for (place, event) in order {
            spans.add(place, event);
        }
        spans.prints.sort_by_key(|&(span, _)| span);
        Ok(spans)
    }

    /// Adds a span for each label that has an event with a time.
    fn add_labels(&mut self, order: &[(Place, &Event)]) {
        for &(place, event) in order {
            let Some(time) = self.scene.time(place) else { continue };
            let next = self.all.len() as u32;
            let number = *self.labels.entry(event.label.0).or_insert(next);
            match self.all.get_mut(number as usize) {
                Some(span) => {
                    (span.start, span.end) = (span.start.min(time), span.end.max(time));
                }
                None => self.all.push(Span {
                    about: About::Label,
                    place,
                    label: event.label,
                    start: time,
                    end: time,
                    parent: None,
                    follows: None,
                }),
            }
        }
    }

    /// Adds the span that an event begins, if it begins one and there is a time.
    fn add(&mut self, place: Place, event: &Event) {
        let times = match event.kind {
            Kind::Send => self.message(place, event),
            Kind::Receive => self.work(place, event),
            Kind::Print => {
                let span = self.scene.time(place).and(self.natural_parent(place, event));
                self.prints.extend(span.map(|span| (span, place)));
                None
            }
        };
        let Some((about, start, end)) = times else { return };
        let Some(follows) = self.natural_parent(place, event) else { return };
        let parent = self.that_ends_no_earlier(follows, event.label, end);
        let follows = Some(follows).filter(|&follows| Some(follows) != parent);
        self.begun.set(self.scene, place, Some(self.all.len() as u32));
        let label = event.label;
        self.all.push(Span { about, place, label, start, end, parent, follows });
    }

    /// Finds the span of a send: to the receive of the reply if that is known, else to the end of
    /// the work that the message gave, or to the last event that follows it. A reply is the end of
    /// its call.
    fn message(&self, place: Place, event: &Event) -> Option<(About, i64, i64)> {
        let receive = match self.scene.partner(place, event) {
            Partner::Receive(pid, index) => Some((pid, index)),
            _ => None,
        };
        if receive.is_some_and(|receive| self.calls.requests.contains_key(&receive)) {
            return None;
        }
        let got = receive.and_then(|receive| self.scene.time(receive));
        let start = self.scene.time(place).or(got)?;
        let work = receive.and_then(|receive| self.works.at(self.scene, receive));
        let follower = || self.scene.time(*self.works.followers.get(&place)?);
        let done = work.and_then(|work| self.end(work)).or(got).or_else(follower);
        let is_call = matches!(role(self.scene, event.value), Some(Role::Request(_)));
        let reply = self.calls.replies.get(&place).and_then(|&reply| self.scene.time(reply));
        let about = if is_call { About::Call } else { About::Message };
        Some((about, start, reply.or(done).unwrap_or(start).max(start)))
    }

    /// Finds the span of a receive, unless it is that of a reply.
    fn work(&self, place: Place, event: &Event) -> Option<(About, i64, i64)> {
        let work = self.works.at(self.scene, place).filter(|work| work.receive == place)?;
        let end = self.end(work);
        let start = self.scene.time(place).or(end)?;
        let is_call = matches!(role(self.scene, event.value), Some(Role::Request(_)));
        let about = if is_call { About::Service } else { About::Work };
        Some((about, start, end.unwrap_or(start).max(start)))
    }

    /// Returns when a process was done with a message: when it replied, or by the last stamp.
    fn end(&self, work: &Work) -> Option<i64> {
        let (pid, receive) = work.receive;
        let last = work.reply.unwrap_or(work.last);
        self.scene.time((pid, last)).or_else(|| self.scene.time((pid, receive)))
    }

    /// Returns the span that an event follows directly: for a receive that of its message, for a
    /// stamp that of the work, or of the message if its receive wasn't reported, and for what
    /// follows nothing that of its label.
    fn natural_parent(&self, place: Place, event: &Event) -> Option<u32> {
        let before = match (self.scene.partner(place, event), event.kind) {
            (Partner::Send(pid, index), _) => self.begun((pid, index)),
            (_, Kind::Receive) => None,
            (_, Kind::Send | Kind::Print) => match self.scene.link(place).cause {
                Cause::Message(send) => self.begun(send.place()),
                _ => self.works.at(self.scene, place).and_then(|work| self.begun(work.receive)),
            },
        };
        before.or_else(|| self.labels.get(&event.label.0).copied())
    }

    pub(super) fn begun(&self, place: Place) -> Option<u32> {
        self.begun.get(self.scene, place)
    }

    /// Finds the nearest span from this one on up that doesn't end before this time, of this label.
    fn that_ends_no_earlier(&self, from: u32, label: Label, end: i64) -> Option<u32> {
        let up = |&number: &u32| self.all.get(number as usize)?.parent;
        let fits = |number: &u32| {
            let span = self.all.get(*number as usize);
            span.is_some_and(|span| span.end >= end && span.label == label)
        };
        std::iter::successors(Some(from), up)
            .find(fits)
            .or_else(|| self.labels.get(&label.0).copied())
    }

    /// Finds the span of the receive that an event's process had under another label before it.
    pub(super) fn of_other_label(&self, place: Place) -> Option<u32> {
        match self.scene.link(place).cause {
            Cause::Begins(Some(had)) => self.begun(had.place()),
            _ => None,
        }
    }

    pub(super) fn get(&self, number: u32) -> Option<&Span> {
        self.all.get(number as usize)
    }
}
