//! The questions that a program asks of a trace, each with a result of its own type.

use crate::device::Sink;
use crate::{Act, Answer, CompleteError, Completion, Event, Finding, Kind, Never, NodeHop};
use crate::{NodeHops, OutOfMemory, Pid, Reason, Streams, Text, Trace, TOP};
use lack_decide::CompleteFault;
use st_library::alloc::Global;
use st_library::rt::HostRuntime;
use st_world::{StepFault, World};
use std::collections::{BTreeMap, BTreeSet, HashSet};
use std::fmt::{self, Display, Formatter};
use std::io::{self, Write};
use thiserror::Error;

/// Acts of a run in which each process reports exactly its events.
///
/// # Guarantees
///
/// The checker has accepted the acts, so they are a run of that kind, whatever built them.
#[derive(Debug)]
pub struct Fits {
    pub(crate) finding: Finding,
}

impl Fits {
    /// Returns the acts of the run, in their order.
    pub fn acts(&self) -> &[Act] {
        match &self.finding {
            Finding::Fits(acts, _) => acts.as_slice(),
            Finding::Unfit(..) => &[],
        }
    }

    /// Returns, for each reported receive, the number of its act and that of its send's act.
    pub fn pairs(&self) -> &[(u64, u64)] {
        match &self.finding {
            Finding::Fits(_, pairs) => pairs.as_slice(),
            Finding::Unfit(..) => &[],
        }
    }

    /// Returns whether this trace has as many sends as the run, and as many receives.
    pub fn has_all_ends(&self, trace: &Trace) -> bool {
        let sent = self.acts().iter().filter(|act| matches!(act, Act::Send(..))).count();
        let reported = trace.events().filter(|(_, event)| event.kind == Kind::Send).count();
        self.pairs().len() == sent && reported == sent
    }
}

/// An event at which the search for a run ended, and why.
#[derive(Debug)]
pub struct Unfit {
    /// The process that reported the event.
    pub pid: Pid,
    /// The event's number among those of its process, from 0.
    pub index: u64,
    /// The reason for which no run was found. [`Unfit::never`] says if there can be none.
    pub reason: Reason,
}

impl Unfit {
    /// Returns the reason if no run without a reset reports the trace; else [`complete`] decides.
    pub fn never(&self) -> Option<Never> {
        match self.reason {
            Reason::PrevNotBefore => Some(Never::PrevNotBefore),
            Reason::NotRising(index) => Some(Never::NotRising(index)),
            Reason::Repeated(pid, index) => Some(Never::Repeated(pid, index)),
            Reason::Mismatch(pid, index) => Some(Never::Mismatch(pid, index)),
            Reason::Uncaused | Reason::TooWide | Reason::NotReplayed(..) => None,
        }
    }
}

impl Display for Unfit {
    fn fmt(&self, f: &mut Formatter<'_>) -> fmt::Result {
        let found =
            self.never().map_or("no run was found of", |_| "no run without a reset reports");
        write!(f, "{found} event {} of {}: {:?}", self.index, Text(self.pid), self.reason)
    }
}

/// The reasons for which [`audit`] has no acts.
#[derive(Debug, Error)]
pub enum AuditError {
    /// No run was found.
    #[error("no run was found that reports the trace")]
    Unfit(Unfit),
    /// Memory ran out.
    #[error(transparent)]
    Memory(#[from] OutOfMemory),
}

/// Looks for a run in which each process reports exactly its events.
///
/// # Guarantees
///
/// The acts of a yes are a run of that kind, in which each reported receive follows its send. A
/// reason that is final means that no run without a reset reports the trace.
pub fn audit(trace: &Trace) -> Result<Fits, AuditError> {
    let found = st_audit::audit::<TOP>(&HostRuntime, Global, trace.streams());
    match found.map_err(|_| OutOfMemory)? {
        Finding::Unfit(pid, index, reason) => Err(AuditError::Unfit(Unfit { pid, index, reason })),
        finding @ Finding::Fits(..) => Ok(Fits { finding }),
    }
}

/// Finds what the trace lacks, or why no run without a reset reports it, whatever processes that
/// the trace doesn't list did.
///
/// # Guarantees
///
/// The judge has accepted a completion: a run reports the trace with its additions, and each of
/// them is needed. A reason means that no run without a reset reports the trace.
pub fn complete(trace: &Trace) -> Result<Answer, CompleteError> {
    lack_decide::complete::<TOP>(Global, trace.streams()).map_err(|fault| match fault {
        CompleteFault::Memory => OutOfMemory.into(),
        CompleteFault::Uncompleted => CompleteError::Uncompleted,
    })
}

/// An event on the way back from another: its process, its number there, and what it follows.
#[derive(Clone, Copy, Debug)]
pub struct Because {
    /// The process that reported the event, and the event's number there.
    pub place: (Pid, u64),
    /// The event that it follows, or why none is known.
    pub hop: NodeHop,
}

/// Returns the event at this place, the one that it follows, and so on back, as far as its label
/// goes; nothing if no event is there. It ends before an event that it has already: in streams of
/// which no order has each receive after its send, causes can go in a circle.
///
/// # Guarantees
///
/// Each hop holds in every run of a standard node without a reset that reports the trace and meets
/// the hop's [premises](NodeHop::premises).
pub fn why(trace: &Trace, place: (Pid, u64)) -> Result<Vec<Because>, OutOfMemory> {
    let hops = NodeHops::of(trace.streams())?;
    let (mut way, mut seen) = (Vec::new(), HashSet::new());
    let mut next = Some(place);
    while let Some(place) = next.filter(|&place| seen.insert(place)) {
        let Some(event) = trace.streams().event(place.0, place.1) else { break };
        let hop = hops.hop(place, &event);
        next = match hop {
            NodeHop::Sent(pid, index) => Some((pid, index)),
            NodeHop::After(index) => Some((place.0, index)),
            _ => None,
        };
        way.push(Because { place, hop });
    }
    Ok(way)
}

impl Trace {
    /// Returns the trace with each count replaced by its rank among all counts, and whether that
    /// changed any. If a run has these counts, one has the trace's own.
    pub fn renumbered(&self) -> Result<(Trace, bool), OutOfMemory> {
        let ranked = Trace::of_streams(lack_decide::renumbered(Global, self.streams())?);
        let is_other = self.processes().any(|(pid, events)| events != ranked.streams().events(pid));
        Ok((ranked, is_other))
    }

    /// Asks the checker about the acts in the text, and returns `None` if the text has no acts.
    pub fn check(&self) -> Result<Option<st_check::Verdict>, OutOfMemory> {
        let Some(acts) = self.acts() else { return Ok(None) };
        let verdict = st_check::check::<TOP>(Global, self.streams(), acts);
        verdict.map(Some).map_err(|_| OutOfMemory)
    }

    /// Makes a trace that lists these processes, without acts, of events of theirs, each process's
    /// in their order.
    pub fn of_events(
        listed: BTreeSet<Pid>,
        events: impl IntoIterator<Item = (Pid, Event)>,
    ) -> Result<Trace, OutOfMemory> {
        let mut draft = st_core::Draft::new(Global);
        for pid in listed {
            draft.open(pid).map_err(|_| OutOfMemory)?;
        }
        for (pid, event) in events {
            draft.add(pid, event).map_err(|_| OutOfMemory)?;
        }
        draft.close().map(Trace::of_streams).map_err(|_| OutOfMemory)
    }

    /// Returns a part of the trace: the events at these rising indices of each process. The part
    /// lists these processes, and those that the events name.
    pub fn part(&self, kept: &BTreeMap<Pid, Vec<u64>>) -> Result<Trace, OutOfMemory> {
        let events = || {
            kept.iter().flat_map(|(&pid, indices)| {
                let own = self.streams().events(pid);
                indices.iter().filter_map(move |&index| Some((pid, own.get(index as usize)?)))
            })
        };
        let mut listed: BTreeSet<Pid> = kept.keys().copied().collect();
        listed.extend(events().flat_map(|(_, event)| [Some(event.from), event.to]).flatten());
        Trace::of_events(listed, events().map(|(pid, &event)| (pid, event)))
    }
}

/// Returns the events that a completion adds, by process and index among all its events.
pub fn added(completion: &Completion) -> impl Iterator<Item = (Pid, u64, &Event)> {
    completion.streams().pids().iter().flat_map(move |&pid| {
        let events = completion.streams().events(pid).iter().zip(0..);
        let is_added = move |index| completion.told(pid, index) == Some(false);
        let added = events.filter(move |&(_, index)| is_added(index));
        added.map(move |(event, index)| (pid, index, event))
    })
}

/// Writes what a completion adds, as `seqtool complete` does.
pub fn write_added(out: &mut impl Write, completion: &Completion) -> io::Result<()> {
    Sink::write(out, |sink| seqtool_commands::send_added(sink, completion))
}

/// The tracing state of a process: its token, its clock, the count that it received last with a
/// token, or that of a new trace's start, and whether a tracer is set on its node.
pub type State = st_core::Local<TOP>;

/// A run under way.
pub struct Rerun {
    world: World<TOP>,
}

/// The outcome of an act.
#[derive(Clone, Copy, Debug, PartialEq, Eq)]
pub enum Came {
    /// A step, with its report if it made one, and for a receive the message's place in the queue.
    Step(Option<Event>, Option<u64>),
    /// No step: a process isn't there, or a clock is at its greatest value.
    Stuck,
}

impl Rerun {
    /// Begins a run of these processes, before its first act.
    pub fn new(streams: &Streams) -> Result<Rerun, OutOfMemory> {
        let world = World::new(Global, streams.pids()).map_err(|_| OutOfMemory)?;
        Ok(Rerun { world })
    }

    /// Makes an act. One without a step changes nothing.
    pub fn take(&mut self, act: &Act) -> Result<Came, OutOfMemory> {
        match self.world.step(act) {
            Ok(outcome) => Ok(Came::Step(outcome.report, outcome.place)),
            Err(StepFault::Memory) => Err(OutOfMemory),
            Err(StepFault::Unknown | StepFault::ClockFull) => Ok(Came::Stuck),
        }
    }

    /// Returns the state of a process, or `None` if the run hasn't the process.
    pub fn state(&self, pid: Pid) -> Option<State> {
        self.world.local(pid)
    }
}
