//! Traces of a standard node whose counters have wrapped, and what the laws of such a node say of
//! them.
//!
//! A text of version 3 is one of version 2, but that the counts of a serial may have a minus, and
//! that the answer of a spawn is `answer` in place of `'receive'`. So it is rewritten as one of
//! version 2, which the proved reader then reads. The rewriting isn't proved.

use crate::node_acts::put_plain;
use crate::{Event, Kind, OutOfMemory, Pid, ReadError, Serial, Text, Trace};
use memchr::{memchr, memchr_iter};
use node_given::Way;
use node_machine::Seen;
use node_origins::EventOrigins;
use node_streams::{MessageContent, MessageEnds};
use st_library::alloc::Global;
use st_text::ReadFault;
use std::cell::{Cell, OnceCell};
use std::collections::{HashMap, HashSet, VecDeque};
use std::iter;
use std::ops::Range;

/// The first line of the text of such a trace.
pub const WRAPPED: &[u8] = b"seqtrace 3\n";

/// The counts that a serial shows: the lowest 60 bits of a counter, with their sign.
const SHOWN: Range<i64> = -(1 << 59)..1 << 59;

/// The number of counts that a serial can show.
pub const COUNTS: u64 = 1 << 60;

/// The values of the bits of a clock that a serial hides.
const UPPERS: Range<u64> = 0..1 << (u64::BITS - COUNTS.trailing_zeros());

/// The number of a process's events from which the upper bits of its first clock are told: they
/// matter at each greater count that it receives.
const FRONT: usize = 1_000;

/// Returns a count as the node prints it: above the greatest comes the least.
pub fn signed(count: u64) -> i64 {
    let count = count as i64;
    if count < SHOWN.end {
        count
    } else {
        count - COUNTS as i64
    }
}

/// A trace of a node whose counters have wrapped. Each count in it is the number from 0 to 2^60 - 1
/// with the bits of the one that the node prints.
#[derive(Debug)]
pub struct NodeTrace {
    trace: Trace,
    /// The answers of spawns, in the order of the text.
    answers: Vec<(Pid, u64)>,
    /// The number of answers before the event that was asked about last: mostly the next one is
    /// asked about then. Only time depends on it.
    passed: Cell<usize>,
    spawned: OnceCell<HashSet<Pid>>,
    is_wrapped: bool,
}

/// The findings about the trace of a node.
#[derive(Debug)]
pub struct NodeFinding {
    /// The receives of messages of which no reported send is left.
    pub unsent: Vec<(Pid, u64)>,
    /// The sends of messages of which no reported receive is left.
    pub unreceived: Vec<(Pid, u64)>,
    /// The receives that wait for their sends if no order of the events has each receive after its
    /// send; else none.
    pub cycle: Vec<(Pid, u64)>,
    /// The way in which each event is given, by process.
    pub ways: Vec<(Pid, Vec<Way>)>,
}

/// A process whose counters go on from before the trace.
#[derive(Debug)]
pub struct FromBefore {
    /// Its first send or print.
    pub place: (Pid, u64),
    /// The way in which each of its events is given then.
    pub ways: Vec<Way>,
    /// Tells whether a token that it had saved before the trace was put back for that.
    pub is_put_back: bool,
}

impl NodeFinding {
    /// Returns the places of the events that are given in a way for which the function is true.
    pub fn places(&self, is_so: impl Fn(Way) -> bool) -> Vec<(Pid, u64)> {
        let own = |(pid, ways): &(Pid, Vec<Way>)| {
            let pid = *pid;
            let chosen = ways.iter().zip(0..).filter(|&(&way, _)| is_so(way));
            chosen.map(move |(_, index)| (pid, index)).collect::<Vec<_>>()
        };
        self.ways.iter().flat_map(own).collect()
    }
}

impl NodeTrace {
    /// Takes a trace as one of a standard node, on which these receives, in the order of the text,
    /// are the answers of spawns.
    pub fn new(trace: Trace, answers: Vec<(Pid, u64)>) -> NodeTrace {
        let (passed, spawned) = (Cell::new(0), OnceCell::new());
        NodeTrace { trace, answers, passed, spawned, is_wrapped: false }
    }

    /// Reads a text of version 3. Takes the text, to let it go before the events are read.
    pub fn read(text: Vec<u8>) -> Result<NodeTrace, ReadError> {
        let rewritten = Rewritten::of(&text).map_err(ReadError::Faulty)?;
        drop(text);
        let trace = Trace::read(&rewritten.text[..])?;
        let answers = places(&trace, &rewritten.answers)?;
        Ok(NodeTrace { is_wrapped: true, ..NodeTrace::new(trace, answers) })
    }

    /// Returns the events of all processes.
    pub fn trace(&self) -> &Trace {
        &self.trace
    }

    /// Returns whether the text was one of version 3.
    pub fn is_wrapped(&self) -> bool {
        self.is_wrapped
    }

    /// Returns whether this event is the answer of a spawn.
    pub fn is_answer(&self, place: (Pid, u64)) -> bool {
        let is_behind = |&at: &usize| {
            at.checked_sub(1).is_none_or(|last| self.answers[last] < place)
                && self.answers.get(at).is_none_or(|next| *next >= place)
        };
        let passed = self.passed.get();
        let mut near = passed..=self.answers.len().min(passed + 1);
        let at = near.find(is_behind);
        let at = at.unwrap_or_else(|| self.answers.partition_point(|it| *it < place));
        self.passed.set(at);
        self.answers.get(at) == Some(&place)
    }

    /// Returns whether a spawn was answered in the trace.
    pub fn has_answers(&self) -> bool {
        !self.answers.is_empty()
    }

    /// Finds what the laws of a standard node say of the trace.
    pub fn audit(&self) -> Result<NodeFinding, OutOfMemory> {
        let streams = self.trace.streams();
        let judgement = node_streams::judge(Global, streams)?;
        let ways = |(pid, events): (Pid, &[Event])| Ok((pid, given(&self.seen(pid, events))?));
        let unsent = judgement.unsent.as_slice().to_vec();
        let more_sent = |(_, event): (_, &Event)| match event.kind {
            Kind::Send => 1,
            Kind::Receive => -1,
            Kind::Print => 0,
        };
        let surplus: i64 = self.trace.events().map(more_sent).sum();
        let has_unreceived = surplus + unsent.len() as i64 > 0;
        Ok(NodeFinding {
            unreceived: if has_unreceived { self.unreceived()? } else { Vec::new() },
            unsent,
            cycle: judgement.cycle.as_slice().to_vec(),
            ways: self.trace.processes().map(ways).collect::<Result<_, OutOfMemory>>()?,
        })
    }

    /// Returns whether each receive has its send, and the events have an order in which it comes
    /// after that.
    pub fn is_ordered(&self) -> Result<bool, OutOfMemory> {
        let judgement = node_streams::judge(Global, self.trace.streams())?;
        Ok(judgement.unsent.is_empty() && judgement.cycle.is_empty())
    }

    /// Returns whether a process was spawned in the trace.
    pub fn is_spawned(&self, pid: Pid) -> bool {
        let spawned = self.spawned.get_or_init(|| {
            let event = |&(pid, index): &(Pid, u64)| self.trace.streams().event(pid, index);
            self.answers.iter().filter_map(event).map(|answer| answer.from).collect()
        });
        spawned.contains(&pid)
    }

    /// Returns those of these receives whose unreported sends can have come before the trace: the
    /// first send or print of the sender's has a greater count, if there is one.
    pub fn sent_before(&self, unsent: &[(Pid, u64)]) -> Vec<(Pid, u64)> {
        if unsent.is_empty() {
            return Vec::new();
        }
        let first = |(pid, events): (Pid, &[Event])| {
            let stamp = events.iter().find(|event| event.kind != Kind::Receive)?;
            Some((pid, stamp.serial.this))
        };
        let firsts: HashMap<Pid, u64> = self.trace.processes().filter_map(first).collect();
        let can_be_before = |&(pid, index): &(Pid, u64)| {
            let Some(event) = self.trace.streams().event(pid, index) else { return false };
            let is_below = |&first: &u64| {
                let distance = first.wrapping_sub(event.serial.this) % COUNTS;
                (1..COUNTS / 2).contains(&distance)
            };
            !self.is_spawned(event.from) && firsts.get(&event.from).is_none_or(is_below)
        };
        unsent.iter().copied().filter(can_be_before).collect()
    }

    /// Finds the processes whose first send or print is ungiven, unless their counters go on from
    /// before the trace. One that was spawned in the trace isn't among them.
    pub fn from_before(&self, finding: &NodeFinding) -> Result<Vec<FromBefore>, OutOfMemory> {
        let mut found = Vec::new();
        for &(pid, ref ways) in &finding.ways {
            let first = ways.iter().position(|&way| way != Way::Receive);
            let Some(first) = first.filter(|&at| ways[at] == Way::Ungiven) else { continue };
            if self.is_spawned(pid) {
                continue;
            }
            let seen = self.seen(pid, self.trace.streams().events(pid));
            // A count of 0 comes after the greatest one.
            if seen[first].serial.this == 0 && !self.is_wrapped {
                continue;
            }
            // Counters that haven't wrapped have no bits that a serial hides.
            let uppers = if self.is_wrapped { UPPERS } else { 0..1 };
            let place = (pid, first as u64);
            let goes_on = given_from_before(&seen, first, uppers)?;
            found.push(match goes_on {
                Some(ways) => FromBefore { place, ways, is_put_back: false },
                None => FromBefore { place, ways: given_saved(&seen, first)?, is_put_back: true },
            });
        }
        Ok(found)
    }

    /// Returns the send and the receive of each message of which both were reported: alike messages
    /// are received in order.
    pub fn pairs(&self) -> Vec<((Pid, u64), (Pid, u64))> {
        let mut sends: HashMap<MessageContent, VecDeque<(Pid, u64)>> = HashMap::new();
        for (place, event) in self.events(Kind::Send) {
            sends.entry(MessageContent::of(event)).or_default().push_back(place);
        }
        let receives = self.events(Kind::Receive);
        let pair =
            |(place, event)| Some((sends.get_mut(&MessageContent::of(event))?.pop_front()?, place));
        receives.filter_map(pair).collect()
    }

    fn unreceived(&self) -> Result<Vec<(Pid, u64)>, OutOfMemory> {
        let ends = MessageEnds::of(Global, self.trace.streams())?;
        let mut unreceived = Vec::new();
        for (pid, events) in self.trace.processes() {
            let receives = ends.partners(Global, events)?;
            let sends = events.iter().zip(&receives).zip(0..);
            let own =
                sends.filter(|((event, receive), _)| event.kind == Kind::Send && receive.is_none());
            unreceived.extend(own.map(|(_, index)| (pid, index)));
        }
        Ok(unreceived)
    }

    /// Returns the events of a kind, by process.
    pub fn events(&self, kind: Kind) -> impl Iterator<Item = ((Pid, u64), &Event)> {
        self.trace.events().filter(move |(_, event)| event.kind == kind)
    }

    fn seen(&self, pid: Pid, events: &[Event]) -> Vec<Seen> {
        let behind = &self.answers[self.answers.partition_point(|it| it.0 < pid)..];
        let mut left = behind.iter().peekable();
        seen(events, |index| left.next_if(|&&it| it == (pid, index)).is_some())
    }
}

/// The origins of the tokens of a process.
#[derive(Debug)]
pub struct Origins {
    /// The way in which each event is given.
    pub ways: Vec<Way>,
    /// The events that the token of each event may have come from.
    pub events: Vec<EventOrigins>,
}

impl Origins {
    /// Finds them by the events of the process, and by which receives answer a spawn. Returns
    /// `None` if a count is none that a serial of a node shows, or if the ways need no origins.
    pub fn of(
        events: &[Event],
        is_answer: impl Fn(u64) -> bool,
        are_needed: impl FnOnce(&[Way]) -> bool,
    ) -> Result<Option<Origins>, OutOfMemory> {
        let seen = seen(events, is_answer);
        if !are_shown(&seen) {
            return Ok(None);
        }
        let ways = given(&seen)?;
        if !are_needed(&ways) {
            return Ok(None);
        }
        let events = node_origins::origins(Global, &seen)?.into_iter().collect();
        Ok(Some(Origins { ways, events }))
    }
}

/// Asks of each receive, in order, whether it is the answer of a spawn.
fn seen(events: &[Event], mut is_answer: impl FnMut(u64) -> bool) -> Vec<Seen> {
    let seen = |(event, index): (&Event, u64)| Seen {
        kind: event.kind,
        label: event.label,
        serial: event.serial,
        answer: event.kind == Kind::Receive && is_answer(index),
    };
    events.iter().zip(0..).map(seen).collect()
}

/// Returns whether serials of a node show all counts of these events.
fn are_shown(seen: &[Seen]) -> bool {
    seen.iter().all(|event| event.serial.prev.max(event.serial.this) < COUNTS)
}

/// Returns what gives each event; nothing gives those of a process with a count that no serial of a
/// node shows.
fn given(seen: &[Seen]) -> Result<Vec<Way>, OutOfMemory> {
    if are_shown(seen) {
        return Ok(node_given::given(Global, seen)?.into_iter().collect());
    }
    let way = |event: &Seen| if event.kind == Kind::Receive { Way::Receive } else { Way::Ungiven };
    Ok(seen.iter().map(way).collect())
}

/// Returns what gives each event of a process if its counters go on from before the first of them,
/// so that they lead to its first stamp. The upper bits of the clock, which no serial shows, are
/// those with which the fewest of the stamps soon after it are ungiven.
fn given_from_before(
    seen: &[Seen],
    first: usize,
    uppers: Range<u64>,
) -> Result<Option<Vec<Way>>, OutOfMemory> {
    let front = &seen[..seen.len().min(first + FRONT)];
    let mut best: Option<(usize, u64)> = None;
    for upper in uppers {
        let ways = given_after(past(seen, first, upper), front)?;
        let ungiven = ways.iter().filter(|&&way| way == Way::Ungiven).count();
        if ways[first] == Way::Plain && best.is_none_or(|(least, _)| ungiven < least) {
            best = Some((ungiven, upper));
        }
    }
    let ways = |(_, upper)| given_after(past(seen, first, upper), seen);
    best.map(ways).transpose()
}

/// Returns what gives each event of a process if it had saved the token of its first stamp.
fn given_saved(seen: &[Seen], first: usize) -> Result<Vec<Way>, OutOfMemory> {
    let Serial { prev, this } = seen[first].serial;
    let serial = Serial { prev, this: this.wrapping_sub(1) % COUNTS };
    given_after(vec![Seen { kind: Kind::Receive, serial, answer: false, ..seen[first] }], seen)
}

fn given_after(mut past: Vec<Seen>, seen: &[Seen]) -> Result<Vec<Way>, OutOfMemory> {
    let before = past.len();
    past.extend_from_slice(seen);
    Ok(given(&past)?.split_off(before))
}

/// Returns events that leave a process with the clock from which its first stamp goes on. The
/// answer of a spawn sets a clock to any count that ends in 15, and prints raise it. If nothing was
/// received before the stamp, its token was received in the past.
fn past(seen: &[Seen], first: usize, upper: u64) -> Vec<Seen> {
    let stamp = seen[first];
    let clock = upper * COUNTS + stamp.serial.this.wrapping_sub(1) % COUNTS;
    let event =
        |kind, prev, this| Seen { kind, serial: Serial { prev, this }, answer: false, ..stamp };
    let mut past = Vec::new();
    let answered = clock.checked_sub(15).map(|it| it / 16);
    if let Some(this) = answered {
        past.push(Seen { answer: true, ..event(Kind::Receive, 0, this) });
    }
    let begin = answered.map_or(0, |it| 16 * it + 15);
    past.extend((begin..clock).map(|it| event(Kind::Print, begin % COUNTS, (it + 1) % COUNTS)));
    if first == 0 {
        past.push(event(Kind::Receive, stamp.serial.prev, stamp.serial.prev));
    }
    past
}

/// A text of version 3 as one of version 1 or 2, line by line.
struct Rewritten {
    text: Vec<u8>,
    /// The lines of the answers.
    answers: Vec<u64>,
}

impl Rewritten {
    fn of(text: &[u8]) -> Result<Rewritten, ReadFault> {
        let body = text.strip_prefix(WRAPPED).ok_or(ReadFault::Line(1))?;
        let is_further = |at: usize| body.get(at + 1).is_some_and(|&digit| digit != b'0');
        let names_further_node = memchr_iter(b'<', body).any(is_further);
        let header = if names_further_node { "seqtrace 2\n" } else { "seqtrace 1\n" };
        let mut rewritten = Rewritten { text: Vec::with_capacity(text.len()), answers: Vec::new() };
        rewritten.text.extend_from_slice(header.as_bytes());
        for (line, number) in lines(body).zip(2..) {
            match std::str::from_utf8(line).ok().and_then(EventLine::of) {
                None => put_plain(line, &mut rewritten.text),
                Some(event) => {
                    let written = event.write_plain(&mut rewritten.text);
                    written.ok_or(ReadFault::Line(number))?;
                    if event.kind == ANSWER {
                        rewritten.answers.push(number);
                    }
                }
            }
        }
        Ok(rewritten)
    }
}

/// Splits a text after each line break.
fn lines(mut text: &[u8]) -> impl Iterator<Item = &[u8]> {
    iter::from_fn(move || {
        let end = memchr(b'\n', text).map_or(text.len(), |at| at + 1);
        let (line, rest) = text.split_at(end);
        text = rest;
        (!line.is_empty()).then_some(line)
    })
}

/// Returns the places of the events on these lines, which rise.
fn places(trace: &Trace, on_lines: &[u64]) -> Result<Vec<(Pid, u64)>, OutOfMemory> {
    let lines = trace.lines()?;
    let mut left = on_lines.iter().peekable();
    let mut places = Vec::with_capacity(on_lines.len());
    for (pid, events) in trace.processes() {
        let Some(first) = lines.line(pid, 0) else { continue };
        let behind = first + events.len() as u64;
        let own = std::iter::from_fn(|| left.next_if(|&&line| line < behind));
        places.extend(own.filter_map(|line| Some((pid, line.checked_sub(first)?))));
    }
    Ok(places)
}

const ANSWER: &str = "answer";

/// The parts of an event's line: `FRONT,{KIND,{PREV,THIS}REST`.
struct EventLine<'a> {
    line: &'a str,
    front: &'a str,
    kind: &'a str,
    prev: &'a str,
    this: &'a str,
    rest: &'a str,
}

impl<'a> EventLine<'a> {
    fn of(line: &'a str) -> Option<EventLine<'a>> {
        let (front, rest) = split_at_brace(line)?;
        let (kind, rest) = split_at_brace(rest)?;
        let (serial, rest) = rest.split_once('}')?;
        let (prev, this) = serial.split_once(',')?;
        Some(EventLine { line, front, kind, prev, this, rest })
    }

    /// Writes the line as version 2 has it; returns `None` if a count isn't one that a node prints.
    fn write_plain(&self, text: &mut Vec<u8>) -> Option<()> {
        let EventLine { line, front, kind, prev, this, rest } = *self;
        let (prev, this) = (printed_count(prev)?, printed_count(this)?);
        if kind != ANSWER && prev >= 0 && this >= 0 {
            text.extend_from_slice(line.as_bytes());
            return Some(());
        }
        let kind = if kind == ANSWER { "'receive'" } else { kind };
        for part in [front, ",{", kind, ",{"] {
            text.extend_from_slice(part.as_bytes());
        }
        Text(prev as u64 % COUNTS).put(text);
        text.push(b',');
        Text(this as u64 % COUNTS).put(text);
        text.push(b'}');
        text.extend_from_slice(rest.as_bytes());
        Some(())
    }
}

/// Splits a text at its first `,{`, as `split_once` does, which takes longer for a short text.
fn split_at_brace(text: &str) -> Option<(&str, &str)> {
    let at = text.as_bytes().windows(2).position(|pair| pair == b",{")?;
    Some((&text[..at], &text[at + 2..]))
}

/// Reads a count as a node prints it; returns `None` if the word isn't such a count, spelled so.
fn printed_count(word: &str) -> Option<i64> {
    let digits = word.strip_prefix('-').unwrap_or(word);
    let is_spelled_so = word == "0" || matches!(digits.as_bytes().first(), Some(b'1'..=b'9'));
    word.parse().ok().filter(|count| is_spelled_so && SHOWN.contains(count))
}
