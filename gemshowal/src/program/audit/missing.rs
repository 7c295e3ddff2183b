//! Unreported events of a trace that fits, as far as its pairs, hops and counts tell of them.

use crate::names::Names;
use crate::view::{Place, Shown};
use gemshowal::{Event, Kind, NodeHop, NodeHops, OutOfMemory, Paired, Partner, Pid};
use std::collections::{BTreeSet, HashMap, HashSet};

#[derive(Clone, Copy, Debug)]
pub(super) enum Lack {
    /// An event that a completion adds, at this place of it.
    Added(Place, Known),
    Hidden(Place),
    /// The receive of this send, which an event follows.
    Unreceived(Place, Before),
}

/// The degree to which an event that a completion adds is known.
#[derive(Clone, Copy, Debug, PartialEq, Eq)]
pub(super) enum Known {
    /// The send of a receive that was reported: it happened.
    Certain,
    /// The receive of a send that was reported.
    Supposed,
    /// An end of a message of which nothing was reported.
    Invented,
}

/// The event that an unreported receive comes before.
#[derive(Clone, Copy, Debug)]
pub(super) enum Before {
    Event(Place),
    /// The unreported send of the receive at this place.
    SendOf(Place),
}

#[derive(Debug, Default)]
pub(super) struct Missing {
    pub(super) lacks: Vec<Lack>,
    /// The sends without a receive that no event follows: their messages may still wait.
    pub(super) waiting: Vec<Place>,
    /// The reported sends and prints whose cause isn't known.
    pub(super) open: Vec<Place>,
    pub(super) counters: Vec<(Pid, Counter)>,
}

/// The turn of an event in the one order of all processes: by the greatest count of its process up
/// to it, sends and prints before receives, then by process.
type Turn = (u64, bool, Pid, u64);

fn place_of((_, _, pid, index): Turn) -> Place {
    (pid, index)
}

/// The state of all processes, before they are searched one by one.
struct Finder<'a> {
    shown: &'a Shown<'a>,
    /// The pairs, unless both ends of each message were reported.
    paired: Option<&'a Paired<'a>>,
    /// The hops of all events, unless none of these can follow something that wasn't reported.
    hops: Option<NodeHops<'a>>,
    /// The reported sends without a receive, by receiver and count, with their labels.
    unreceived: HashMap<(Pid, u64), Vec<(u32, Turn)>>,
    /// The counts of sends that only their receives tell of, or that nobody knows, by sender.
    hidden: HashMap<Pid, BTreeSet<u64>>,
    added: Vec<(Turn, Lack)>,
    sends: Vec<(Turn, Lack)>,
    receives: Vec<(bool, Turn, Lack)>,
    open: Vec<Turn>,
    counters: Vec<(Pid, Counter)>,
}

impl Missing {
    /// Finds them by the pairs, unless both ends of each message were reported.
    pub(super) fn find(shown: &Shown<'_>, pairs: Option<&Paired<'_>>) -> Result<Self, OutOfMemory> {
        let is_plain = shown.processes().all(|(_, events)| goes_by_receives(events));
        let hops = (!is_plain).then(|| NodeHops::of(shown.streams)).transpose()?;
        let mut finder = Finder {
            shown,
            paired: pairs,
            hops,
            unreceived: HashMap::new(),
            hidden: HashMap::new(),
            added: Vec::new(),
            sends: Vec::new(),
            receives: Vec::new(),
            open: Vec::new(),
            counters: Vec::new(),
        };
        for (pid, events) in shown.processes().filter(|_| pairs.is_some()) {
            finder.note_ends(pid, events);
        }
        for (pid, events) in shown.processes() {
            finder.follow(pid, events);
        }
        finder.follow_hidden();
        Ok(finder.found())
    }

    pub(super) fn is_nothing(&self) -> bool {
        self.lacks.is_empty()
            && self.waiting.is_empty()
            && self.open.is_empty()
            && self.counters.iter().all(|(_, counter)| counter.silent == 0 && counter.jumps == 0)
    }
}

impl Finder<'_> {
    fn note_ends(&mut self, pid: Pid, events: &[Event]) {
        let mut height = 0;
        for (event, index) in events.iter().zip(0..) {
            let this = event.serial.this;
            height = height.max(this);
            let place = (pid, index);
            let partner = self.partner(event, place);
            if !self.shown.is_reported(place) {
                let turn = (height, event.kind == Kind::Receive, pid, index);
                let known = self.known(event, partner);
                self.added.push((turn, Lack::Added(place, known)));
                if known == Known::Invented && event.kind == Kind::Send {
                    self.hidden.entry(pid).or_default().insert(this);
                }
            } else if let (Partner::NoReceive, Some(to)) = (partner, event.to) {
                let sends = self.unreceived.entry((to, this)).or_default();
                sends.push((event.label.0, (height, false, pid, index)));
            } else if let Partner::NoSend = partner {
                self.hidden.entry(event.from).or_default().insert(this);
                self.sends.push(((this, false, event.from, 0), Lack::Hidden(place)));
            }
        }
    }

    fn partner(&self, event: &Event, place: Place) -> Partner {
        self.paired.map_or(Partner::Nobody, |paired| paired.partner(place, event.kind))
    }

    fn known(&self, event: &Event, partner: Partner) -> Known {
        let is_reported = partner.place().is_some_and(|place| self.shown.is_reported(place));
        match event.kind {
            Kind::Send if is_reported => Known::Certain,
            _ if is_reported => Known::Supposed,
            _ => Known::Invented,
        }
    }

    fn follow(&mut self, pid: Pid, events: &[Event]) {
        let mut counter = Counter::default();
        let mut height = 0;
        let mut newest = None;
        let nothing = BTreeSet::new();
        for (event, index) in events.iter().zip(0..) {
            height = height.max(event.serial.this);
            if event.kind == Kind::Receive {
                newest = Some(event.serial.this);
                counter.receive(event);
                continue;
            }
            let send = self.stamp(event, (height, false, pid, index), newest);
            if !self.is_invented_send(event, (pid, index)) {
                let hidden = self.hidden.get(&pid).unwrap_or(&nothing);
                counter.stamp(event, send.is_some(), hidden, self.shown.view.names);
            }
        }
        if counter.tells() {
            self.counters.push((pid, counter));
        }
    }

    fn is_invented_send(&self, event: &Event, place: Place) -> bool {
        event.kind == Kind::Send
            && !self.shown.is_reported(place)
            && self.known(event, self.partner(event, place)) == Known::Invented
    }

    /// Notes which unreported event a send or print follows; returns the send of such a receive.
    fn stamp(&mut self, event: &Event, turn: Turn, newest: Option<u64>) -> Option<Place> {
        let place = place_of(turn);
        let is_moved = |hops: &NodeHops<'_>| matches!(hops.hop(place, event), NodeHop::Moved(_));
        if !self.hops.as_ref().is_some_and(is_moved) {
            return None;
        }
        let prev = event.serial.prev;
        if newest.is_some_and(|count| counter_behind(count) == Some(prev)) {
            return None;
        }
        let send = self.unreceived_send(place.0, prev, event.label.0);
        match send {
            Some(send) => {
                let lack = Lack::Unreceived(send, Before::Event(place));
                self.receives.push((false, turn, lack));
            }
            None if self.shown.is_reported(place) => self.open.push(turn),
            None => {}
        }
        send
    }

    /// Finds the send with this label and count to a process, if nobody reported its receive.
    fn unreceived_send(&self, to: Pid, count: u64, label: u32) -> Option<Place> {
        let sends = self.unreceived.get(&(to, count))?;
        sends.iter().find(|(of, _)| *of == label).map(|&(_, turn)| place_of(turn))
    }

    /// Finds the unreported messages that hidden sends follow. A hidden send may have been at any
    /// time, so any reported receive with its prev explains it.
    fn follow_hidden(&mut self) {
        let senders: HashSet<Pid> = self.sends.iter().map(|((_, _, from, _), _)| *from).collect();
        let mut received = HashSet::new();
        for &from in &senders {
            let events = self.shown.streams.events(from).iter();
            let receives = events.filter(|event| event.kind == Kind::Receive);
            received.extend(receives.map(|event| (from, event.serial.this)));
        }
        for &(turn, lack) in &self.sends {
            let Lack::Hidden(receive) = lack else { continue };
            let Some(event) = self.shown.streams.event(receive.0, receive.1) else { continue };
            let prev = event.serial.prev;
            if received.contains(&(event.from, prev)) {
                continue;
            }
            if let Some(send) = self.unreceived_send(event.from, prev, event.label.0) {
                self.receives.push((true, turn, Lack::Unreceived(send, Before::SendOf(receive))));
            }
        }
    }

    fn found(mut self) -> Missing {
        self.added.sort_unstable_by_key(|(turn, _)| *turn);
        self.sends.sort_by_key(|(turn, _)| *turn);
        self.receives.sort_by_key(|(is_of_hidden, turn, _)| (*is_of_hidden, *turn));
        self.open.sort_unstable();
        let mut followed = HashSet::new();
        let is_new = |lack: &Lack| match *lack {
            Lack::Unreceived(send, _) => followed.insert(send),
            Lack::Added(..) | Lack::Hidden(_) => true,
        };
        let lacks = self.added.into_iter().chain(self.sends).map(|(_, lack)| lack);
        let receives = self.receives.into_iter().map(|(.., lack)| lack);
        let lacks = lacks.chain(receives).filter(is_new).collect();
        let waiting = self.unreceived.into_values().flatten();
        let mut waiting: Vec<Turn> = waiting.map(|(_, turn)| turn).collect();
        waiting.sort_unstable();
        let waiting = waiting.into_iter().map(place_of).filter(|send| !followed.contains(send));
        let waiting = waiting.collect();
        let open = self.open.into_iter().map(place_of).collect();
        Missing { lacks, waiting, open, counters: self.counters }
    }
}

/// Returns whether the prev of each send and print is the count of the last receive before it, or 0
/// if there is none: then each follows that, or begins.
fn goes_by_receives(events: &[Event]) -> bool {
    let mut last = 0;
    events.iter().all(|event| {
        if event.kind == Kind::Receive {
            last = event.serial.this;
        }
        event.kind == Kind::Receive || event.serial.prev == last
    })
}

/// Returns the counter of a process behind the answer of a spawn with this count: OTP moves it to
/// 16 times the count, and 15.
fn counter_behind(answer: u64) -> Option<u64> {
    answer.checked_mul(16)?.checked_add(15)
}

#[derive(Clone, Debug, Default)]
pub(super) struct Counter {
    clock: u64,
    has_stamped: bool,
    /// The counts and messages received since the last send or print; one may be a spawn's answer.
    received: Vec<(u64, u64)>,
    /// The number of counts that no event has: of prints, or of sends without reported receives.
    pub(super) silent: u64,
    /// The number of times that the counter was higher than any reported event shows.
    pub(super) jumps: u64,
    /// The number of times that OTP moved the counter on as it answered a spawn.
    pub(super) spawns: u64,
    /// The counter before the first send or print, if it wasn't 0.
    pub(super) before: u64,
    /// The counter before the first send or print, if something was received before that, so that
    /// something unreported may lie between.
    pub(super) behind: u64,
}

impl Counter {
    pub(super) fn tells(&self) -> bool {
        self.silent + self.jumps + self.spawns + self.before > 0
    }

    pub(super) fn receive(&mut self, event: &Event) {
        self.clock = self.clock.max(event.serial.this);
        self.received.push((event.serial.this, event.value));
    }

    /// Goes on over a send or print, which follows an unreported receive of a reported send or not.
    /// `hidden` are the counts of sends that only their receives tell of.
    pub(super) fn stamp(
        &mut self,
        event: &Event,
        follows_unreported: bool,
        hidden: &BTreeSet<u64>,
        names: &Names,
    ) {
        let (prev, this) = (event.serial.prev, event.serial.this);
        if follows_unreported {
            self.clock = self.clock.max(prev);
        }
        let stood = this.saturating_sub(1);
        let is_spawn = |&(count, value): &(u64, u64)| {
            counter_behind(count) == Some(stood) && names.is_spawned(value)
        };
        if stood > self.clock {
            if self.received.iter().any(is_spawn) {
                self.spawns += 1;
            } else {
                self.pass(prev, stood, hidden);
            }
        }
        self.clock = self.clock.max(this);
        self.has_stamped = true;
        self.received.clear();
    }

    /// Passes the counts up to this one, which no event of the process has.
    fn pass(&mut self, prev: u64, stood: u64, hidden: &BTreeSet<u64>) {
        if !self.has_stamped {
            let Some(&first) = hidden.range(self.clock + 1..=stood).next() else {
                return self.begin(stood);
            };
            self.begin(first - 1);
            self.clock = first;
            self.has_stamped = true;
        }
        let clock = if prev > self.clock {
            self.jumps += 1;
            prev
        } else {
            self.clock
        };
        if stood > clock {
            let known = hidden.range(clock + 1..=stood).count() as u64;
            self.silent = self.silent.saturating_add(stood - clock - known);
        }
    }

    fn begin(&mut self, stood: u64) {
        if stood > self.clock {
            self.before = stood;
            self.behind = if self.clock > 0 { stood } else { 0 };
        }
    }
}
