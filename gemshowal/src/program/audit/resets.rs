//! The resets that may be in a trace that no run without one has.
//!
//! A reset sets the counters of all processes back and takes the tokens off the messages that are
//! under way. So each part between two resets is a beginning of what is left of each process's
//! events: in it each process's counts rise, and a message that both ends report is received in the
//! part in which it was sent. The longest beginnings of this kind are taken, one part after
//! the other.

use crate::messages::Strays;
use gemshowal::{Event, Kind, MessageContent, Pid, Trace};
use std::collections::HashMap;

/// The number of parts after which the total is estimated.
const ENOUGH: usize = 8;

/// For each process, the indices at which its events in the part begin and end.
pub(super) type Part = HashMap<Pid, (usize, usize)>;

/// Splits the trace into parts, one alone if nothing says that there was a reset. Returns `None` if
/// there would be more than `most`.
pub(super) fn split(trace: &Trace, strays: &Strays, most: usize) -> Option<Vec<Part>> {
    let mut parts = Vec::new();
    let mut begins: HashMap<Pid, usize> = trace.processes().map(|(pid, _)| (pid, 0)).collect();
    loop {
        let ends = take(trace, strays, &begins);
        let taken: usize = begins.iter().map(|(pid, begin)| ends[pid] - begin).sum();
        let left: usize = trace.processes().map(|(pid, events)| events.len() - ends[&pid]).sum();
        let is_last = taken == 0 || left == 0;
        let end = |(pid, events): (Pid, &[Event])| {
            (pid, (begins[&pid], if taken == 0 { events.len() } else { ends[&pid] }))
        };
        parts.push(trace.processes().map(end).collect());
        if is_last {
            return Some(parts);
        }
        // Stops early: if the parts go on like these, there would be far too many, and each takes a
        // pass over the rest.
        let total = trace.streams().total() as usize;
        let would_be = total * parts.len() / (total - left).max(1);
        if parts.len() == most || parts.len() >= ENOUGH && would_be > 2 * most {
            return None;
        }
        begins = ends;
    }
}

/// Finds how far each process's events go in the first part of the rest.
fn take(trace: &Trace, strays: &Strays, begins: &HashMap<Pid, usize>) -> HashMap<Pid, usize> {
    let mut run = Run::new(trace, strays, begins);
    let mut going: Vec<Pid> = trace.streams().pids().iter().rev().copied().collect();
    while let Some(pid) = going.pop() {
        run.go_on(pid, &mut going);
    }
    run.keep();
    run.ends
}

enum Next {
    Taken,
    Ends,
    Waits,
}

/// Processes that go on side by side as far as they can.
struct Run<'a> {
    trace: &'a Trace,
    strays: &'a Strays,
    begins: &'a HashMap<Pid, usize>,
    ends: HashMap<Pid, usize>,
    clocks: HashMap<Pid, u64>,
    /// The places of the events that were taken: of sends and prints by process and count, of
    /// receives by the sender and the count.
    stamps: HashMap<(Pid, u64), (Pid, usize)>,
    received: HashMap<(Pid, u64), (Pid, usize)>,
    /// The number of messages of each kind that are sent and not yet received.
    sends: HashMap<MessageContent, u64>,
    waiting: HashMap<MessageContent, Vec<Pid>>,
}

impl<'a> Run<'a> {
    fn new(trace: &'a Trace, strays: &'a Strays, begins: &'a HashMap<Pid, usize>) -> Run<'a> {
        let mut sends = HashMap::new();
        for (pid, events) in trace.processes() {
            let left = events.iter().skip(begins[&pid]);
            for event in left.filter(|event| event.kind == Kind::Send) {
                *sends.entry(strays.content(event)).or_default() += 1;
            }
        }
        Run {
            trace,
            strays,
            begins,
            ends: begins.clone(),
            clocks: HashMap::new(),
            stamps: HashMap::new(),
            received: HashMap::new(),
            sends,
            waiting: HashMap::new(),
        }
    }

    /// Takes the next event of a process, if it can be, and lets go on whoever waited for it.
    fn go_on(&mut self, pid: Pid, going: &mut Vec<Pid>) {
        let end = self.ends[&pid];
        let Some(event) = self.trace.streams().events(pid).get(end) else { return };
        let content = self.strays.content(event);
        match self.next(pid, event, content) {
            Next::Ends => return,
            Next::Waits => return self.waiting.entry(content).or_default().push(pid),
            Next::Taken => {}
        }
        self.ends.insert(pid, end + 1);
        let this = event.serial.this;
        let clock = self.clocks.entry(pid).or_default();
        *clock = (*clock).max(this);
        going.push(pid);
        if event.kind == Kind::Receive {
            self.received.insert((event.from, this), (pid, end));
            return;
        }
        self.stamps.insert((pid, this), (pid, end));
        if event.kind == Kind::Send {
            *self.sends.entry(content).or_default() -= 1;
            going.extend(self.waiting.remove(&content).into_iter().flatten());
        }
    }

    fn next(&self, pid: Pid, event: &Event, content: MessageContent) -> Next {
        let this = event.serial.this;
        if event.kind != Kind::Receive {
            let is_late = this <= self.clocks.get(&pid).copied().unwrap_or(0);
            let is_known = self.received.contains_key(&(pid, this));
            return if is_late || is_known { Next::Ends } else { Next::Taken };
        }
        match self.stamps.get(&(event.from, this)).map(|&(pid, at)| &self.events(pid)[at]) {
            _ if self.received.contains_key(&(event.from, this)) => Next::Ends,
            Some(stamp) if stamp.kind == Kind::Send && self.strays.content(stamp) == content => {
                Next::Taken
            }
            Some(_) => Next::Ends,
            None if self.sends.get(&content).is_some_and(|left| *left > 0) => Next::Waits,
            None => Next::Taken,
        }
    }

    fn events(&self, pid: Pid) -> &'a [Event] {
        self.trace.streams().events(pid)
    }

    /// Lowers the ends to what stays in the part. What a process does next may follow a receive that
    /// was taken last; a reset makes a process forget what it received, so that receive belongs to
    /// the next part, with all after it, the send of each of these receives, and the receive of each
    /// of these sends. A send whose message is received after the part belongs to the next part too.
    fn keep(&mut self) {
        let pids = self.trace.streams().pids();
        let mut cuts: Vec<(Pid, usize)> =
            pids.iter().map(|&pid| (pid, self.caused_from(pid, self.ends[&pid]))).collect();
        cuts.extend(self.received_behind());
        while let Some((pid, place)) = cuts.pop() {
            let end = self.ends[&pid];
            if place >= end {
                continue;
            }
            self.ends.insert(pid, place);
            for event in self.events(pid).iter().take(end).skip(place) {
                let key = (event.from, event.serial.this);
                let ends = if event.kind == Kind::Receive { &self.stamps } else { &self.received };
                cuts.extend(ends.get(&key));
            }
            cuts.push((pid, self.caused_from(pid, place)));
        }
    }

    /// Returns the place of the receive that an event follows if only receives are between, else
    /// the event's own place.
    fn caused_from(&self, pid: Pid, place: usize) -> usize {
        let events = self.events(pid);
        let Some(stamp) = events.get(place).filter(|event| event.kind != Kind::Receive) else {
            return place;
        };
        let own = events.iter().enumerate().take(place).skip(self.begins[&pid]).rev();
        let mut receives = own.take_while(|(_, event)| event.kind == Kind::Receive);
        let cause = receives.find(|(_, event)| event.serial.this == stamp.serial.prev);
        cause.map_or(place, |(at, _)| at)
    }

    /// Finds the sends whose messages are received after the part, unless a later send may be
    /// theirs.
    fn received_behind(&self) -> Vec<(Pid, usize)> {
        let mut wanted: HashMap<MessageContent, i64> = HashMap::new();
        for (pid, events) in self.trace.processes() {
            for event in events.iter().skip(self.ends[&pid]) {
                match event.kind {
                    Kind::Receive => *wanted.entry(self.strays.content(event)).or_default() += 1,
                    Kind::Send => *wanted.entry(self.strays.content(event)).or_default() -= 1,
                    Kind::Print => {}
                }
            }
        }
        let mut found = Vec::new();
        for (pid, events) in self.trace.processes() {
            let own = events.iter().enumerate().take(self.ends[&pid]).skip(self.begins[&pid]);
            for (place, event) in own.rev().filter(|(_, event)| event.kind == Kind::Send) {
                let is_received = self.received.contains_key(&(pid, event.serial.this));
                match wanted.get_mut(&self.strays.content(event)) {
                    Some(left) if *left > 0 && !is_received => {
                        *left -= 1;
                        found.push((pid, place));
                    }
                    _ => {}
                }
            }
        }
        found
    }
}
