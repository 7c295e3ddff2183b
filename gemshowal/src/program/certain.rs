//! The events of a completion that happened in every run. A proved law decides of each: it is shown
//! the reported events that rule out all else. Of a standard node a rule decides that isn't proved.

use crate::view::Place;
use gemshowal::{added, is_sent, shows_loss, Completion, Event, Kind, Pid, Serial, Streams};
use std::collections::{BTreeSet, HashMap, HashSet};

/// The answer of a spawn of count T leaves the counters of a standard node at 16 T + 15.
const SPAWN_FACTOR: u64 = 16;
const SPAWN_TAG: u64 = 15;

/// A send or print, and the reported event that tells of it: itself, or the receive of its message.
#[derive(Clone, Copy)]
struct Stamp {
    serial: Serial,
    told_by: Place,
    is_reported: bool,
}

/// The events that happened in every run without a reset.
#[derive(Default)]
pub(crate) struct Certain {
    /// The added sends of messages whose receives were reported, and the added receives that are
    /// there: of a message of this count, between these two reported events.
    pub(crate) added: HashSet<Place>,
    /// The other added receives that happened on a standard node, if no token was put back.
    pub(crate) added_on_a_node: HashSet<Place>,
    /// The sends and prints before which a message of their prev's count was received on such a
    /// node, though the completion adds none.
    pub(crate) lost_on_a_node: BTreeSet<Place>,
}

impl Certain {
    pub(crate) fn of(streams: &Streams, completion: &Completion) -> Certain {
        let receives = receives_of_added(streams, completion);
        let mut certain = Certain::default();
        for &pid in completion.streams().pids() {
            certain.add_process(Walk::new(streams, pid), completion, &receives);
        }
        certain
    }

    fn add_process(
        &mut self,
        mut walk: Walk<'_>,
        completion: &Completion,
        receives: &HashMap<(Pid, u64), Place>,
    ) {
        let pid = walk.pid;
        for (event, index) in completion.streams().events(pid).iter().zip(0..) {
            let is_reported = completion.told(pid, index) == Some(true);
            let told_by = match event.kind {
                _ if is_reported => Some((pid, walk.reported)),
                Kind::Receive => None,
                Kind::Send | Kind::Print => receives.get(&(pid, event.serial.this)).copied(),
            };
            match told_by.map(|told_by| Stamp { serial: event.serial, told_by, is_reported }) {
                Some(stamp) if event.kind != Kind::Receive => {
                    self.add_receive_before(&walk, stamp, (pid, index));
                    if !is_reported && is_sent(walk.streams, event, stamp.told_by) {
                        self.added.insert((pid, index));
                    }
                    walk.pass_stamp(stamp);
                }
                None if event.kind == Kind::Receive => {
                    walk.added = Some((index, event.serial.this))
                }
                Some(_) | None => {}
            }
            if is_reported {
                walk.pass_reported(event);
            }
        }
    }

    fn add_receive_before(&mut self, walk: &Walk<'_>, stamp: Stamp, place: Place) {
        let receive = walk.added.filter(|&(_, count)| count == stamp.serial.prev);
        match receive.map(|(index, _)| (walk.pid, index)) {
            Some(receive) if walk.shows_loss(stamp) => {
                self.added.insert(receive);
            }
            Some(receive) if walk.is_lost_on_a_node(stamp) => {
                self.added_on_a_node.insert(receive);
            }
            None if walk.is_lost_on_a_node(stamp) => {
                self.lost_on_a_node.insert(place);
            }
            Some(_) | None => {}
        }
    }
}

/// Returns the reported receives of the messages whose sends are added, by sender and count.
fn receives_of_added(streams: &Streams, completion: &Completion) -> HashMap<(Pid, u64), Place> {
    let sends = added(completion).filter(|(.., event)| event.kind == Kind::Send);
    let sent: HashSet<_> = sends.map(|(pid, _, event)| (pid, event.serial.this)).collect();
    if sent.is_empty() {
        return HashMap::new();
    }
    let places = streams.pids().iter().flat_map(|&pid| {
        streams.events(pid).iter().zip(0..).map(move |(event, index)| (event, (pid, index)))
    });
    let receives = places.filter(|(event, _)| event.kind == Kind::Receive);
    let keyed = receives.map(|(event, place)| ((event.from, event.serial.this), place));
    keyed.filter(|(message, _)| sent.contains(message)).collect()
}

struct Walk<'a> {
    streams: &'a Streams,
    pid: Pid,
    /// The number of its reported events so far.
    reported: u64,
    /// The last of them.
    before: Option<Event>,
    /// The greatest count among them, with its place.
    highest: Option<(u64, Place)>,
    /// The last stamp that reported events tell of.
    last: Option<Stamp>,
    /// The last one before it that has another prev.
    other: Option<Stamp>,
    /// The index and the count of the last added receive after the last reported event.
    added: Option<(u64, u64)>,
}

impl<'a> Walk<'a> {
    fn new(streams: &'a Streams, pid: Pid) -> Walk<'a> {
        let (reported, before, highest) = (0, None, None);
        Walk { streams, pid, reported, before, highest, last: None, other: None, added: None }
    }

    /// Returns whether a receive of its prev's count was lost before this stamp in every run.
    fn shows_loss(&self, stamp: Stamp) -> bool {
        let prev = stamp.serial.prev;
        let before = [self.last, self.other].into_iter().flatten();
        let other = before.into_iter().find(|other| other.serial.prev != prev);
        let highest = self.highest.map(|(_, place)| place);
        let others = highest.into_iter().chain(other.map(|other| other.told_by));
        others.into_iter().any(|other| {
            shows_loss(self.streams, self.pid, self.reported, prev, stamp.told_by, other)
        })
    }

    /// Returns whether one was on a standard node, where only a receive changes the next prev, or a
    /// spawn. The stamp has to be after the last reported event and not after the next one.
    fn is_lost_on_a_node(&self, stamp: Stamp) -> bool {
        let Stamp { serial: Serial { prev, this }, is_reported, .. } = stamp;
        let next = self.streams.event(self.pid, self.reported);
        let is_here = is_reported || next.is_none_or(|next| this <= next.serial.this);
        match self.before {
            _ if prev % SPAWN_FACTOR == SPAWN_TAG => false,
            Some(before) if before.kind == Kind::Receive => {
                is_reported && before.serial.this != prev
            }
            _ => is_here && self.last.map_or(0, |last| last.serial.prev) != prev,
        }
    }

    fn pass_stamp(&mut self, stamp: Stamp) {
        if self.last.is_some_and(|last| last.serial.prev != stamp.serial.prev) {
            self.other = self.last;
        }
        self.last = Some(stamp);
    }

    fn pass_reported(&mut self, event: &Event) {
        let (place, count) = ((self.pid, self.reported), event.serial.this);
        if self.highest.is_none_or(|(highest, _)| highest < count) {
            self.highest = Some((count, place));
        }
        self.before = Some(*event);
        self.reported += 1;
        self.added = None;
    }
}
