//! Trace events in Chrome's form, which Perfetto reads: a process for each node, a thread for each
//! process, a flow for each message whose two ends are known, and slices.
//!
//! A short slice is an event. Around those of a process are what it did for a message, from its
//! receive to the last stamp that follows it, and its calls, from the request to the reply.

use super::scene::{Place, Scene, Table};
use super::work as kind;
use super::work::{Calls, Work, Works};
use crate::names::Line;
use crate::object::kind_word;
use crate::output::Output;
use crate::view::short;
use crate::Failure;
use gemshowal::{Event, Kind, OutOfMemory, Partner, Pid};
use std::collections::{BTreeSet, HashMap};
use std::io::{self, Write};

/// The part of a unit by which the slice of a work begins before its first event and ends after its
/// last one, and that of a call. An event takes half a unit or more, and the next comes a unit
/// later.
const AROUND_WORK: f64 = 0.2;
const AROUND_CALL: f64 = 0.1;

/// The longest slice of an event, which takes half the time up to the next of its process.
const LONGEST: f64 = 1_000.0;

pub(super) fn write(scene: &Scene<'_>, out: &mut Output) -> Result<(), Failure> {
    let clock = Clock::of(scene)?;
    let calls = Calls::of(scene);
    let mut enclosing = enclosing(&Works::of(scene, &calls), &calls);
    let mut next = 0;
    let process = |(pid, events): (Pid, &[Event])| {
        let mut quoted = serde_json::Value::from(scene.names.process(pid)).to_string();
        quoted.pop();
        next += events.len() as u64;
        (quoted, next - events.len() as u64)
    };
    let processes = scene.trace.processes().map(process).collect();
    let writer = Writer { scene, clock, processes };
    out.write_all(b"{\"displayTimeUnit\":\"ns\",\"traceEvents\":[")?;
    let lanes = (1..).zip(scene.trace.processes().filter(|(_, events)| !events.is_empty()));
    let mut nodes = BTreeSet::new();
    for (thread, (pid, events)) in lanes {
        let comma = if nodes.is_empty() { "\n" } else { ",\n" };
        if nodes.insert(pid.node()) {
            out.put(|line| writer.put_node(line.text(comma), pid))?;
        }
        let times = writer.clock.times.of_process(scene, pid);
        let lane = Lane { pid, thread, events, times };
        writer.write_process(out, lane, enclosing.remove(&pid).unwrap_or_default())?;
    }
    Ok(out.write_all(b"\n]}\n")?)
}

/// A process with its events and their times, and the number of its thread.
#[derive(Clone, Copy, Debug)]
struct Lane<'a> {
    pid: Pid,
    thread: u64,
    events: &'a [Event],
    times: &'a [Option<i64>],
}

struct Enclosing {
    first: u64,
    last: u64,
    is_call: bool,
}

/// Returns the slices around the events of each process, the outer ones first. One that began
/// within another ends no later, as slices of a thread have to.
fn enclosing(works: &Works, calls: &Calls) -> HashMap<Pid, Vec<Enclosing>> {
    let mut all = HashMap::<Pid, Vec<Enclosing>>::new();
    for &Work { receive: (pid, first), last, .. } in &works.all {
        all.entry(pid).or_default().push(Enclosing { first, last, is_call: false });
    }
    for (&(pid, first), &(_, last)) in &calls.replies {
        all.entry(pid).or_default().push(Enclosing { first, last, is_call: true });
    }
    for own in all.values_mut() {
        own.sort_by_key(|it| (it.first, std::cmp::Reverse(it.last)));
        let mut open: Vec<u64> = Vec::new();
        for slice in own {
            open.retain(|&last| last >= slice.first);
            slice.last = open.last().map_or(slice.last, |&last| slice.last.min(last));
            open.push(slice.last);
        }
    }
    all
}

/// A time and a length, in units of the clock.
type Span = (f64, f64);

struct Writer<'a> {
    scene: &'a Scene<'a>,
    clock: Clock,
    /// The name of each process as JSON but for the last quote, so that more may come, and the
    /// number of its first event among all.
    processes: Vec<(String, u64)>,
}

impl Writer<'_> {
    fn process(&self, pid: Pid) -> Option<&(String, u64)> {
        self.processes.get(self.scene.trace.streams().place_of(pid)?)
    }

    /// Appends the name of a process without the last quote.
    fn put_process(&self, line: &mut Line<'_>, pid: Pid) {
        match self.process(pid) {
            Some((quoted, _)) => line.text(quoted),
            None => line.text("\"").process(self.scene.names, pid),
        };
    }

    fn put_node(&self, line: &mut Line<'_>, pid: Pid) {
        line.text("{\"ph\":\"M\",\"name\":\"process_name\",\"pid\":").number(process(pid));
        line.text(",\"args\":{\"name\":").string(&self.scene.node(pid)).text("}}");
    }

    fn write_process(
        &self,
        out: &mut Output,
        lane: Lane<'_>,
        enclosing: Vec<Enclosing>,
    ) -> io::Result<()> {
        out.put(|line| {
            line.text(",\n{\"ph\":\"M\",\"name\":\"thread_name\"");
            put_lane(line, lane);
            line.text(",\"args\":{\"name\":");
            self.put_process(line, lane.pid);
            line.text("\"}}");
        })?;
        let mut enclosing = enclosing.into_iter().peekable();
        for index in 0..lane.events.len() as u64 {
            while let Some(slice) = enclosing.next_if(|slice| slice.first == index) {
                out.put(|line| self.put_enclosing(line, lane, &slice))?;
            }
            if let Some(span) = self.span(lane, index) {
                out.put(|line| self.put_event(line, lane, index, span))?;
            }
        }
        Ok(())
    }

    fn span(&self, lane: Lane<'_>, index: u64) -> Option<Span> {
        let time = (*lane.times.get(index as usize)?)?;
        let next = lane.times.get(index as usize + 1).copied().flatten();
        let gap = next.map_or(LONGEST, |next| (next - time) as f64 / 2.0);
        let longest = if self.clock.is_measured { LONGEST } else { 0.5 };
        Some((time as f64, gap.clamp(0.5, longest)))
    }

    fn put_enclosing(&self, line: &mut Line<'_>, lane: Lane<'_>, slice: &Enclosing) {
        let first = self.span(lane, slice.first);
        let last = (slice.first..=slice.last).rev().find_map(|index| self.span(lane, index));
        let Some(((start, _), (end, len))) = first.zip(last) else { return };
        let value = lane.events[slice.first as usize].value;
        let (around, cat, name) = match slice.is_call {
            true => (AROUND_CALL, "call", kind::sent(self.scene, value)),
            false => (AROUND_WORK, "work", kind::with_sort(self.scene, "handle", value)),
        };
        line.text(",\n{\"ph\":\"X\",\"name\":").string(&name);
        let span = (start - around, end + len - start + 2.0 * around);
        self.put_slice(line, lane, cat, span, slice.first);
        line.text("\"}}");
    }

    /// Appends a slice's kind, where it is, and the name of its event without the last quote.
    fn put_slice(&self, line: &mut Line<'_>, lane: Lane<'_>, cat: &str, span: Span, index: u64) {
        line.text(",\"cat\":\"").text(cat).text("\"");
        put_lane(line, lane);
        line.text(",\"ts\":");
        self.put_micros(line, span.0);
        line.text(",\"dur\":");
        self.put_micros(line, span.1);
        line.text(",\"args\":{\"event\":");
        self.put_process(line, lane.pid);
        line.text("#").number(index);
    }

    /// Appends the slice of an event, with what else the trace tells of it, and its end of an
    /// arrow. A reader of JSON may round numbers, so they are strings.
    fn put_event(&self, line: &mut Line<'_>, lane: Lane<'_>, index: u64, span: Span) {
        let event = &lane.events[index as usize];
        let (kind, names) = (kind_word(event.kind), self.scene.names);
        let has_terms = names.has_terms();
        line.text(",\n{\"ph\":\"X\",\"name\":");
        if has_terms {
            line.string(&format!("{kind} {}", short(&names.brief(event.value))));
        } else {
            line.text("\"").text(kind).text(" ").number(event.value).text("\"");
        }
        self.put_slice(line, lane, kind, span, index);
        line.text("\",\"label\":").string(&names.label(event.label));
        line.text(",\"serial\":\"").serial(event.serial);
        line.text("\",\"value\":\"").number(event.value).text("\"");
        if has_terms {
            line.text(",\"message\":").string(&names.value(event.value));
        }
        if let Some(to) = event.to {
            line.text(",\"from\":");
            self.put_process(line, event.from);
            line.text("\",\"to\":");
            self.put_process(line, to);
            line.text("\"");
        }
        let partner = self.scene.partner((lane.pid, index), event);
        line.text(match partner {
            Partner::NoReceive => ",\"receive\":\"not reported\"}}",
            Partner::NoSend => ",\"send\":\"not reported\"}}",
            _ => "}}",
        });
        let is_drawn = |end: &Place| self.clock.times.get(self.scene, *end).is_some();
        if partner.place().filter(is_drawn).is_some() {
            self.put_flow(line, lane, index, partner, span.0);
        }
    }

    fn put_flow(&self, line: &mut Line<'_>, lane: Lane<'_>, index: u64, to: Partner, time: f64) {
        let (phase, (pid, sent), end) = match to {
            Partner::Send(pid, sent) => ("f", (pid, sent), ",\"bp\":\"e\"}"),
            _ => ("s", (lane.pid, index), "}"),
        };
        line.text(",\n{\"ph\":\"").text(phase);
        line.text("\",\"name\":\"message\",\"cat\":\"message\",\"id\":");
        line.number(self.process(pid).map_or(0, |(_, first)| first + sent));
        put_lane(line, lane);
        line.text(",\"ts\":");
        self.put_micros(line, time);
        line.text(end);
    }

    /// Appends microseconds, with up to four decimals. A unit of ranks is shown as one.
    fn put_micros(&self, line: &mut Line<'_>, time: f64) {
        let micros = if self.clock.is_measured { time / 1_000.0 } else { time };
        let parts = (micros * 10_000.0).round() as i64;
        let (whole, rest) = (parts.unsigned_abs() / 10_000, parts.unsigned_abs() % 10_000);
        let decimals = [rest / 1_000, rest / 100 % 10, rest / 10 % 10, rest % 10];
        let shown = decimals.iter().rposition(|&decimal| decimal > 0).unwrap_or(0);
        line.text(if parts < 0 { "-" } else { "" }).number(whole).text(".");
        line.0.extend(decimals.iter().take(shown + 1).map(|&decimal| b'0' + decimal as u8));
    }
}

fn put_lane(line: &mut Line<'_>, lane: Lane<'_>) {
    line.text(",\"pid\":").number(process(lane.pid)).text(",\"tid\":").number(lane.thread);
}

/// Returns the number of a process of Perfetto's, which a node is.
fn process(pid: Pid) -> u64 {
    u64::from(pid.node()) + 1
}

/// The times of events. Without measured ones: twice the rank of an event's count among all counts,
/// and one more for a receive, whose send has the same count. If that isn't later than the event
/// before in its process, or than its send, it is one more than the later of them: a receive may
/// have a lower count than what its process did before.
///
/// With measured ones: nanoseconds after the first event, and at least one more than the event
/// before in its process, so that two of one time are still told apart.
struct Clock {
    /// The time of each event; none if it has no time or isn't drawn.
    times: Table<i64>,
    is_measured: bool,
}

impl Clock {
    fn of(scene: &Scene<'_>) -> Result<Clock, OutOfMemory> {
        let is_measured = scene.names.times().is_some();
        let counts = scene.events().filter(|_| !is_measured).map(|(_, event)| event.serial.this);
        let mut counts = Vec::from_iter(counts);
        counts.sort_unstable();
        counts.dedup();
        let (mut times, mut last) = (Table::of(scene), HashMap::<Pid, i64>::new());
        for (place, event) in scene.in_order()? {
            let by_count = || {
                let rank = counts.partition_point(|&other| other < event.serial.this) as i64;
                let sent = scene.partner(place, event).place();
                let sent = sent.and_then(|sent| times.get(scene, sent)).map_or(0, |sent| sent + 1);
                sent.max(2 * rank + i64::from(event.kind == Kind::Receive))
            };
            let time = if is_measured { scene.time(place) } else { Some(by_count()) };
            let Some(time) = time else { continue };
            let last = last.entry(place.0).or_insert(i64::MIN);
            *last = time.max(last.saturating_add(1));
            times.set(scene, place, Some(*last));
        }
        Ok(Clock { times, is_measured })
    }
}
