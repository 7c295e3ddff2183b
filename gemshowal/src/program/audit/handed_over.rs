//! Tokens that a process put back and another one had: programs hand them over in a message or in a
//! table. A token that was there stays there to be handed over, so going on wherever the events
//! allow it misses none.

use super::judged::event_at;
use crate::view::Place;
use gemshowal::{Event, Kind, NodeTrace, Pid, Serial, COUNTS};
use std::collections::{BTreeSet, HashMap, HashSet};

#[derive(Clone, Copy, Debug)]
pub(super) struct HandedOver {
    /// The send or print that shows it.
    pub(super) place: Place,
    pub(super) token: Serial,
    /// The first event of another process that has the token.
    pub(super) of: Place,
}

/// Finds for these sends and prints, which no token of their process gives, a token that another
/// process had, if it can have been there before: all events have an order in which those named
/// come first. Where something of their own may explain them none is looked for.
pub(super) fn handed_over(trace: &NodeTrace, ungiven: &[Place]) -> Vec<HandedOver> {
    let of_process = |own: &[Place]| Strange::of(trace, own[0].0).wanted(own);
    let wanted: HashMap<Place, Token> =
        ungiven.chunk_by(|one, other| one.0 == other.0).flat_map(of_process).collect();
    if wanted.is_empty() {
        return Vec::new();
    }
    let mut walk = Walk::new(trace, wanted);
    let mut going: Vec<Pid> = trace.trace().streams().pids().iter().rev().copied().collect();
    loop {
        while let Some(pid) = going.pop() {
            walk.go_on(pid, &mut going);
        }
        // Goes on without the token that isn't there.
        let Some(stuck) = walk.stuck.pop_first() else { break };
        walk.wanted.remove(&stuck);
        going.push(stuck.0);
    }
    walk.found.sort_unstable_by_key(|it| it.place);
    walk.found
}

/// Finds the first event of another process that has the token of each of these sends and prints,
/// whenever that was: such a process was hardly under way before the trace.
pub(super) fn had_elsewhere(trace: &NodeTrace, stamps: &[Place]) -> HashMap<Place, Place> {
    if stamps.is_empty() {
        return HashMap::new();
    }
    let token = |&place: &Place| Some(token_before(&event_at(trace, place)?));
    let mut holders: HashMap<Token, Holders> =
        stamps.iter().filter_map(token).map(|token| (token, Holders::default())).collect();
    for (of, event) in trace.trace().events() {
        let token = (Some(event.label.0), event.serial.prev, event.serial.this);
        if let Some(holders) = holders.get_mut(&token) {
            holders.note(of, [of.0, event.from]);
        }
    }
    let holder = |place| holders.get(&token(place)?)?.of_others(place.0);
    stamps.iter().filter_map(|place| Some((*place, holder(place)?))).collect()
}

/// The first events that have a token. Each has two ends, and a process asks for one of which it is
/// none.
#[derive(Debug, Default)]
struct Holders {
    first: Option<(Place, [Pid; 2])>,
    /// For each end of the first one the first event of which that is none.
    others: [Option<Place>; 2],
}

impl Holders {
    fn note(&mut self, place: Place, ends: [Pid; 2]) {
        let Some((_, of_first)) = self.first else {
            self.first = Some((place, ends));
            return;
        };
        for (other, end) in self.others.iter_mut().zip(of_first) {
            if !ends.contains(&end) {
                other.get_or_insert(place);
            }
        }
    }

    /// Returns the first event of which this process is no end.
    fn of_others(&self, pid: Pid) -> Option<Place> {
        let (first, ends) = self.first?;
        match ends.iter().position(|&end| end == pid) {
            None => Some(first),
            Some(at) => self.others[at],
        }
    }
}

/// Returns the token that a stamp made this of.
fn token_before(event: &Event) -> Token {
    let Serial { prev, this } = event.serial;
    (Some(event.label.0), prev, this.wrapping_sub(1) % COUNTS)
}

/// The label of a token unless that doesn't matter, and its prev and this.
type Token = (Option<u32>, u64, u64);

/// Tells which sends and prints of a process are strange to it: what it may have sent, printed or
/// received unreported would have a label and a prev that it had.
struct Strange<'a> {
    events: &'a [Event],
    /// The labels and counts that it receives at any time.
    received: HashSet<(u32, u64)>,
    counts: HashSet<u64>,
}

impl<'a> Strange<'a> {
    fn of(trace: &'a NodeTrace, pid: Pid) -> Strange<'a> {
        let events = trace.trace().streams().events(pid);
        let received = || events.iter().filter(|event| event.kind == Kind::Receive);
        Strange {
            events,
            received: received().map(|event| (event.label.0, event.serial.this)).collect(),
            counts: received().map(|event| event.serial.this).collect(),
        }
    }

    /// Returns the tokens that these ungiven events of the process, by rising index, want.
    fn wanted(&self, ungiven: &[Place]) -> Vec<(Place, Token)> {
        let (mut labels, mut prevs, mut pairs) =
            (HashSet::new(), HashSet::from([0]), HashMap::new());
        let mut wanted = Vec::new();
        let mut left = ungiven.iter().peekable();
        for (event, index) in self.events.iter().zip(0..) {
            let (label, prev) = (event.label.0, event.serial.prev);
            let place = left.next_if(|place| place.1 == index);
            let is_own = self.received.contains(&(label, prev));
            let is_strange = *pairs.entry((label, prev)).or_insert(place.is_some() && !is_own);
            if let Some(&place) = place.filter(|_| is_strange) {
                let is_new = !labels.contains(&label) && !prevs.contains(&prev);
                let is_free = is_new && !self.counts.contains(&prev);
                let (label, prev, this) = token_before(event);
                wanted.push((place, (label.filter(|_| !is_free), prev, this)));
            }
            labels.insert(label);
            prevs.insert(prev);
        }
        wanted
    }
}

/// Processes that go on side by side: each receive comes after its send, and each send or print
/// that only a token of another process gives comes after that.
struct Walk<'a> {
    trace: &'a NodeTrace,
    /// The send of each receive.
    sends: HashMap<Place, Place>,
    /// The process that waits for a send.
    receivers: HashMap<Place, Pid>,
    /// The tokens that are wanted, by send or print.
    wanted: HashMap<Place, Token>,
    tokens: HashMap<Token, Wanted>,
    /// The sends and prints whose token hasn't been there.
    stuck: BTreeSet<Place>,
    /// The number of events that each process has taken.
    taken: HashMap<Pid, u64>,
    found: Vec<HandedOver>,
}

/// The events that had a token, and the processes that wait for one.
#[derive(Debug, Default)]
struct Wanted {
    holders: Holders,
    waiting: BTreeSet<Pid>,
}

impl<'a> Walk<'a> {
    fn new(trace: &'a NodeTrace, wanted: HashMap<Place, Token>) -> Walk<'a> {
        Walk {
            trace,
            sends: trace.pairs().into_iter().map(|(send, receive)| (receive, send)).collect(),
            receivers: HashMap::new(),
            tokens: wanted.values().map(|&token| (token, Wanted::default())).collect(),
            wanted,
            stuck: BTreeSet::new(),
            taken: HashMap::new(),
            found: Vec::new(),
        }
    }

    fn taken(&self, pid: Pid) -> u64 {
        self.taken.get(&pid).copied().unwrap_or(0)
    }

    /// Takes a process's events up to one that has to wait.
    fn go_on(&mut self, pid: Pid, going: &mut Vec<Pid>) {
        loop {
            let place = (pid, self.taken(pid));
            let Some(event) = event_at(self.trace, place) else { return };
            if self.has_to_wait(place) {
                return;
            }
            *self.taken.entry(pid).or_default() += 1;
            going.extend(self.receivers.remove(&place));
            for label in [Some(event.label.0), None] {
                if let Some(wanted) =
                    self.tokens.get_mut(&(label, event.serial.prev, event.serial.this))
                {
                    // A process's own messages don't hand it a token, nor do those to it: it
                    // reports their receives.
                    wanted.holders.note(place, [event.from, event.to.unwrap_or(event.from)]);
                    going.extend(std::mem::take(&mut wanted.waiting));
                }
            }
        }
    }

    /// Returns whether an event has to wait for its send or its token, and notes for which.
    fn has_to_wait(&mut self, place: Place) -> bool {
        let send = self.sends.get(&place).copied();
        if let Some(send) = send.filter(|send| self.taken(send.0) <= send.1) {
            self.receivers.insert(send, place.0);
            return true;
        }
        let Some(&token) = self.wanted.get(&place) else { return false };
        let wanted = self.tokens.entry(token).or_default();
        let Some(of) = wanted.holders.of_others(place.0) else {
            wanted.waiting.insert(place.0);
            self.stuck.insert(place);
            return true;
        };
        self.stuck.remove(&place);
        let (_, prev, this) = token;
        self.found.push(HandedOver { place, token: Serial { prev, this }, of });
        false
    }
}
