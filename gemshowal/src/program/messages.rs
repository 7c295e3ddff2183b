//! Finds the message that gave a send or print its token, in a trace without receives: there the
//! send tells the cause.
//!
//! Say that process p sends or prints with label L and serial {v,c}. In each run of a standard node
//! without a reset in which p reported each of its sends and prints, each message to p was reported
//! when it was sent (8), and p put back only tokens that it had held (6), the token of that stamp
//! came from one of these:
//!
//! 1. A message to p of label L with count v, if v < c: its receive was the last act that moved the
//!    counters of p. Where counters may have wrapped, any c will do.
//! 2. A message to p of label L with serial {v,c-1}: p put its token back.
//! 3. Whatever an earlier stamp of p with label L and serial {v,c-1} came from.
//! 4. Whatever the stamp right before came from, if it has label L and is the request of a spawn
//!    whose answer has count T, v is 16 T + 15, and c is v + 1: p kept its token.
//! 5. Home: p made the token, or set its label.
//!
//! The reply that `spawn` waits for gives no token, so it isn't among 1 and 2. That of
//! `spawn_request`, or of another node, does. A message to an alias or a name may be to any process.
//! Of home this is known:
//!
//! - If the first stamp of p with label L has neither 1 nor 2, it is from home.
//! - If each label that p gave was new to it, and it stamped with it before it received it (7), then
//!   a later stamp is from home only by 3 or 4, or as the successor of a token {v,c-1} that p held
//!   before the first one, and whose label it set.
//! - If the first one has 1 or 2, p may have given label L nevertheless. That it gave it to no token
//!   (9) is a premise of its own.
//!
//! Nothing is said of a stamp if what p stamped and what was sent to it shows no v as its last, or
//! no c - 1 as its clock: there a premise fails.
//!
//! The laws of `node_machine` on the sends to a process prove this. That the code goes by them is
//! only tested.

use crate::names::Names;
use crate::view::Place;
use gemshowal::{Event, Kind, MessageContent, Pid, Serial, Trace, COUNTS};
use std::collections::{HashMap, HashSet};

/// A counter can't have wrapped if no count that was reported reaches this one: a stamp adds 1 to
/// it, and the answer of a spawn makes 16 T + 15 of T.
const HIGH: u64 = COUNTS >> 5;

/// The source of a token: its process, which made it or set its label, or the message of a send.
#[derive(Clone, Copy, Debug, PartialEq, Eq)]
pub(crate) enum Source {
    Home,
    Message(Place),
}

/// The sources that a token may have. Two of several are kept.
#[derive(Clone, Copy, Debug, Default, PartialEq, Eq)]
pub(crate) enum Sources {
    #[default]
    Unknown,
    One(Source),
    Several(Source, Source),
}

impl Sources {
    fn or(self, other: Sources) -> Sources {
        match (self, other) {
            (Sources::Unknown, _) => other,
            (Sources::One(a), Sources::One(b)) if a != b => Sources::Several(a, b),
            (Sources::One(_), Sources::Several(..)) => other,
            (Sources::One(_) | Sources::Several(..), _) => self,
        }
    }

    fn add(&mut self, source: Source) {
        *self = self.or(Sources::One(source));
    }
}

/// The stamps of a process with a label, as the first of them tells.
#[derive(Clone, Copy, Debug, PartialEq, Eq)]
pub(crate) enum LabelUse {
    /// This one is the first, and no message gives its token.
    Begun,
    /// The first one is from home.
    Own,
    /// A message may give the token of the first one.
    Received,
}

/// A stamp, by its index, with the sources that its token may have.
#[derive(Clone, Copy, Debug)]
pub(crate) struct Found {
    pub(crate) index: u64,
    pub(crate) sources: Sources,
    pub(crate) label_use: LabelUse,
}

/// The messages of a trace without receives.
pub(crate) struct Messages<'a> {
    trace: &'a Trace,
    names: &'a Names,
    /// The sends to each process.
    sends: HashMap<Pid, Vec<Place>>,
    /// The processes that asked for others, with the ones that they got, and whether they waited.
    spawns: HashMap<(Pid, Pid), bool>,
    /// The messages to aliases and names, each of which may be to any process.
    strays: Mail,
    may_have_wrapped: bool,
}

impl<'a> Messages<'a> {
    /// Collects them, if something was sent and no receive was reported.
    pub(crate) fn of(trace: &'a Trace, names: &'a Names) -> Option<Messages<'a>> {
        let mut sends: HashMap<Pid, Vec<Place>> = HashMap::new();
        let (mut strays, mut greatest) = (Mail::default(), 0);
        for (place, event) in trace.events() {
            greatest = greatest.max(event.serial.prev).max(event.serial.this);
            match (event.kind, event.to) {
                (Kind::Receive, _) => return None,
                (Kind::Send, Some(to)) if is_address(names, to) => {
                    strays.add(place, event, names, false)
                }
                (Kind::Send, Some(to)) => sends.entry(to).or_default().push(place),
                (Kind::Send, None) | (Kind::Print, _) => {}
            }
        }
        let is_sent = trace.processes().any(|(pid, _)| sends.contains_key(&pid));
        let may_have_wrapped = greatest >= HIGH;
        let spawns = spawns(trace, names);
        is_sent.then_some(Messages { trace, names, sends, spawns, strays, may_have_wrapped })
    }

    /// Finds the sources of the stamps of a process, in their order. If nothing can have been sent
    /// to it, it lacks no receive, and nothing is found.
    pub(crate) fn found(&self, pid: Pid) -> Vec<Found> {
        let sends = self.sends.get(&pid);
        if sends.is_none() && self.strays.is_empty() {
            return Vec::new();
        }
        let mut own = Mail::default();
        for &place in sends.into_iter().flatten() {
            if let Some(send) = self.trace.streams().event(place.0, place.1) {
                own.add(place, &send, self.names, self.spawns.get(&(pid, send.from)) == Some(&true));
            }
        }
        let mut walk = Walk::new([&own, &self.strays], self.may_have_wrapped);
        let events = self.trace.streams().events(pid).iter().zip(0..);
        events.map(|(stamp, index)| walk.find(index, stamp)).collect()
    }
}

/// The sends to unknown aliases and names: convert knows no process for one, for example, if two
/// processes received alike messages under a token that was put back between their sends.
pub(crate) struct Strays(HashMap<MessageContent, Vec<Place>>);

impl Strays {
    pub(crate) fn of(trace: &Trace, names: &Names) -> Strays {
        let mut sends: HashMap<MessageContent, Vec<Place>> = HashMap::new();
        for (place, event) in trace.events().filter(|(_, event)| event.kind == Kind::Send) {
            if event.to.is_some_and(|to| is_address(names, to)) {
                sends.entry(without_receiver(event)).or_default().push(place);
            }
        }
        Strays(sends)
    }

    /// Returns what tells the event's message from others. The receiver doesn't, if an alike message
    /// went to an unknown alias or name.
    pub(crate) fn content(&self, event: &Event) -> MessageContent {
        let common = without_receiver(event);
        if self.0.contains_key(&common) {
            common
        } else {
            MessageContent::of(event)
        }
    }

    /// Returns the sends to unknown aliases and names whose message a receive may have taken.
    pub(crate) fn alike(&self, receive: &Event) -> &[Place] {
        self.0.get(&without_receiver(receive)).map_or(&[], Vec::as_slice)
    }
}

fn without_receiver(event: &Event) -> MessageContent {
    MessageContent { to: None, ..MessageContent::of(event) }
}

/// Returns whether this is an alias or a name, and it isn't known of which process.
fn is_address(names: &Names, pid: Pid) -> bool {
    let about = names.about(pid).unwrap_or_default();
    ["alias ", "name "].iter().any(|kind| about.starts_with(kind))
}

/// Returns the processes that asked for others, each with the one that it got, and whether it waited
/// for that one and kept its token. The replies of `spawn_request` and of another node are received
/// as any message.
pub(crate) fn spawns(trace: &Trace, names: &Names) -> HashMap<(Pid, Pid), bool> {
    let spawn = |request: &Event| {
        let child = request.to.filter(|_| request.kind != Kind::Print)?;
        let is_spawn = names.is_awaited_spawn(request.value);
        let is_awaited = is_spawn && !names.are_on_different_nodes(request.from, child);
        let is_request = is_spawn || names.is_spawn_request(request.value);
        is_request.then_some(((request.from, child), is_awaited))
    };
    trace.events().filter_map(|(_, event)| spawn(event)).collect()
}

/// Messages, by what a stamp tells of them.
#[derive(Default)]
struct Mail {
    by_count: HashMap<(u32, u64), Sources>,
    by_serial: HashMap<(u32, u64, u64), Sources>,
    /// The label of the messages with each serial, or `None` if they have several.
    labels: HashMap<(u64, u64), Option<u32>>,
    /// The counts that they leave as last and in the clock.
    counts: HashSet<u64>,
    prevs: HashSet<u64>,
    /// The senders of messages that may answer a spawn, with the last that the answer leaves.
    answers: HashSet<(Pid, u64)>,
}

impl Mail {
    /// Adds the message of a send. Without terms each may answer a spawn. A reply answers the spawn
    /// for which its receiver waited, if it did.
    fn add(&mut self, place: Place, send: &Event, names: &Names, is_awaited: bool) {
        let (label, Serial { prev, this }) = (send.label.0, send.serial);
        let is_reply = names.is_spawned(send.value);
        let is_answer = is_reply && is_awaited;
        if is_reply || !names.has_terms() {
            let last = last_of_answer(this);
            self.answers.insert((send.from, last));
            self.counts.insert(last);
        }
        if !is_answer {
            let message = Source::Message(place);
            self.by_count.entry((label, this)).or_default().add(message);
            self.by_serial.entry((label, prev, this)).or_default().add(message);
            let labels = self.labels.entry((prev, this)).or_insert(Some(label));
            *labels = labels.filter(|&only| only == label);
            self.counts.insert(this);
            self.prevs.insert(prev);
        }
    }

    fn is_empty(&self) -> bool {
        self.counts.is_empty()
    }

    fn with_count(&self, label: u32, count: u64) -> Sources {
        self.by_count.get(&(label, count)).copied().unwrap_or_default()
    }

    fn with_serial(&self, label: u32, prev: u64, this: u64) -> Sources {
        self.by_serial.get(&(label, prev, this)).copied().unwrap_or_default()
    }

    /// Returns whether a message with this serial has another label.
    fn has_of_other_label(&self, label: u32, serial: (u64, u64)) -> bool {
        self.labels.get(&serial).is_some_and(|&only| only != Some(label))
    }

    /// Returns whether last may have been this by a message or by its token, put back.
    fn has_last(&self, last: u64) -> bool {
        self.counts.contains(&last) || self.prevs.contains(&last)
    }
}

/// Returns the last that the answer of a spawn leaves, if its message has this count.
pub(crate) fn last_of_answer(this: u64) -> u64 {
    this.wrapping_mul(16).wrapping_add(15) % COUNTS
}

/// Returns the count before this one.
pub(crate) fn before(count: u64) -> u64 {
    count.wrapping_sub(1) % COUNTS
}

/// A walk over the stamps of a process.
struct Walk<'a> {
    /// The messages to the process, and those that may be to it.
    mails: [&'a Mail; 2],
    may_have_wrapped: bool,
    /// The index of the first stamp with each serial, and with each prev.
    serials: HashMap<(u64, u64), u64>,
    prevs: HashMap<u64, u64>,
    clocks: HashSet<u64>,
    /// The sources of the stamps so far, by label and serial.
    stamps: HashMap<(u32, u64, u64), Sources>,
    /// The first stamp of each label, and what it tells.
    firsts: HashMap<u32, (u64, LabelUse)>,
    /// The stamp right before.
    before: Option<(Event, Sources)>,
}

impl<'a> Walk<'a> {
    fn new(mails: [&'a Mail; 2], may_have_wrapped: bool) -> Walk<'a> {
        Walk {
            mails,
            may_have_wrapped,
            serials: HashMap::new(),
            prevs: HashMap::new(),
            clocks: HashSet::new(),
            stamps: HashMap::new(),
            firsts: HashMap::new(),
            before: None,
        }
    }

    /// Finds the sources of the next stamp.
    fn find(&mut self, index: u64, stamp: &Event) -> Found {
        let given = self.by_message(stamp);
        let label_use = match given {
            Sources::Unknown => LabelUse::Own,
            _ => LabelUse::Received,
        };
        let &mut (first, label_use) =
            self.firsts.entry(stamp.label.0).or_insert((index, label_use));
        let (is_home, label_use) = match label_use {
            LabelUse::Own if first == index => (self.may_begin(stamp), LabelUse::Begun),
            LabelUse::Own => (self.is_saved(first, stamp), LabelUse::Own),
            _ => (false, label_use),
        };
        let home = if is_home { Sources::One(Source::Home) } else { Sources::Unknown };
        let earlier = self.by_stamp(stamp);
        let sources = earlier.map_or(Sources::Unknown, |earlier| given.or(earlier).or(home));
        self.note(index, stamp, sources);
        Found { index, sources, label_use }
    }

    /// Returns the messages that may give a stamp its token.
    fn by_message(&self, stamp: &Event) -> Sources {
        let (label, Serial { prev, this }) = (stamp.label.0, stamp.serial);
        let is_lifted = (prev < this || self.may_have_wrapped) && self.is_clock(before(this));
        let [own, stray] = self.mails.map(|mail| {
            let put_back = mail.with_serial(label, prev, before(this));
            let taken = if is_lifted { mail.with_count(label, prev) } else { Sources::Unknown };
            taken.or(put_back)
        });
        own.or(stray)
    }

    /// Returns the sources of the earlier stamps whose token it may have, or `None` if it may have
    /// that of one without sources.
    fn by_stamp(&self, stamp: &Event) -> Option<Sources> {
        let (label, Serial { prev, this }) = (stamp.label.0, stamp.serial);
        let is_answered = |request: &Event| {
            let sender = request.to.filter(|_| request.label.0 == label && before(this) == prev);
            let mut mails = self.mails.iter();
            sender.is_some_and(|sender| mails.any(|mail| mail.answers.contains(&(sender, prev))))
        };
        let request = self.before.filter(|(request, _)| is_answered(request));
        let succeeded = self.stamps.get(&(label, prev, before(this))).copied();
        let all = [succeeded, request.map(|(_, sources)| sources)];
        let mut known = all.into_iter().flatten();
        known.try_fold(Sources::Unknown, |sources, other| match other {
            Sources::Unknown => None,
            _ => Some(sources.or(other)),
        })
    }

    /// Returns whether the counts may be those of a process that gave its token the label now.
    fn may_begin(&self, stamp: &Event) -> bool {
        let Serial { prev, this } = stamp.serial;
        (self.is_last_by_message(prev) || self.prevs.contains_key(&prev))
            && self.is_clock(before(this))
    }

    /// Returns whether last may have been this at the beginning or by a message.
    fn is_last_by_message(&self, last: u64) -> bool {
        last == 0 || self.mails.iter().any(|mail| mail.has_last(last))
    }

    /// Returns whether a clock of the process may have been this.
    fn is_clock(&self, count: u64) -> bool {
        count == 0
            || self.clocks.contains(&count)
            || self.mails.iter().any(|mail| mail.counts.contains(&count))
    }

    /// Returns whether the stamp may be the successor of a token to which the process gave the
    /// label before the first stamp of it.
    fn is_saved(&self, first: u64, stamp: &Event) -> bool {
        let (prev, count) = (stamp.serial.prev, before(stamp.serial.this));
        let is_early = |index: Option<&u64>| index.is_some_and(|&index| index < first);
        let is_fresh =
            count == 0 && (self.is_last_by_message(prev) || is_early(self.prevs.get(&prev)));
        let mut mails = self.mails.iter();
        is_fresh
            || is_early(self.serials.get(&(prev, count)))
            || mails.any(|mail| mail.has_of_other_label(stamp.label.0, (prev, count)))
    }

    fn note(&mut self, index: u64, stamp: &Event, sources: Sources) {
        let (label, Serial { prev, this }) = (stamp.label.0, stamp.serial);
        self.serials.entry((prev, this)).or_insert(index);
        self.prevs.entry(prev).or_insert(index);
        self.clocks.insert(this);
        let alike = self.stamps.entry((label, prev, this)).or_insert(sources);
        *alike = match (*alike, sources) {
            (Sources::Unknown, _) | (_, Sources::Unknown) => Sources::Unknown,
            (one, other) => one.or(other),
        };
        self.before = Some((*stamp, sources));
    }
}
