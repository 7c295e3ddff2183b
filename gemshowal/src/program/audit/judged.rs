//! Judges a trace by the rules of a standard node. They ask nothing of the order of counts, so
//! counters may wrap, and a token that is put back may move them anywhere.

use super::handed_over::{had_elsewhere, handed_over, HandedOver};
use super::lives;
use super::unexplained::Explainer;
use super::unreceived::after_unreceived;
use super::walk::{walk, Run};
use crate::messages::{spawns, Strays};
use crate::names::Names;
use crate::view::{Kept, Place};
use crate::Failure;
use gemshowal::{
    Event, FromBefore, Kind, MessageContent, NodeFinding, NodeTrace, Pid, Serial, Way, COUNTS,
};
use serde::Serialize;
use std::cell::OnceCell;
use std::collections::{HashMap, HashSet};

/// The judge of a trace and its parts.
pub(super) struct Judge<'a> {
    trace: &'a NodeTrace,
    names: &'a Names,
    judged: OnceCell<Judged>,
    /// The events that only a message whose receive wasn't reported explains.
    after_unreceived: OnceCell<Vec<Place>>,
}

impl<'a> Judge<'a> {
    pub(super) fn new(trace: &'a NodeTrace, names: &'a Names) -> Judge<'a> {
        Judge { trace, names, judged: OnceCell::new(), after_unreceived: OnceCell::new() }
    }

    pub(super) fn is_wrapped(&self) -> bool {
        self.trace.is_wrapped()
    }

    /// Returns the judgement on the trace, or on a part of it.
    pub(super) fn judged(&self, kept: Option<&Kept>) -> Result<Judged, Failure> {
        let judged = match self.judged.get() {
            Some(judged) => judged,
            None => {
                let judge = if self.is_wrapped() { Judged::of } else { Judged::partial };
                let judged = judge(self.trace, self.names)?;
                self.judged.get_or_init(|| judged)
            }
        };
        Ok(kept.map_or_else(|| judged.clone(), |kept| judged.part(kept)))
    }

    /// Returns the judgement if the trace fits with tokens that were put back or handed over. None
    /// explains an event that only a message explains, so where there is one nothing is judged.
    pub(super) fn with_put_backs(&self, kept: Option<&Kept>) -> Result<Option<Judged>, Failure> {
        let found = self.after_unreceived.get_or_init(|| after_unreceived(self.trace));
        if found.iter().any(|place| kept.is_none_or(|kept| has(kept, place))) {
            return Ok(None);
        }
        Ok(Some(self.judged(kept)?).filter(Judged::puts_back))
    }
}

fn has(kept: &Kept, (pid, index): &Place) -> bool {
    kept.get(pid).is_some_and(|own| own.binary_search(index).is_ok())
}

#[derive(Clone, Copy, Debug)]
pub(super) struct PutBack {
    /// The send or print that shows it, or the receive of an unreported send that does.
    pub(super) place: Place,
    /// The event right before which it was put back.
    pub(super) before: Place,
    pub(super) token: Serial,
    /// The last earlier event that has the token, unless the process only made it.
    pub(super) of: Option<Place>,
    pub(super) is_hidden: bool,
}

#[derive(Clone, Copy, Debug, PartialEq, Eq)]
pub(super) enum Verdict {
    Fits,
    /// It fits if something wasn't reported.
    Unexplained,
    Never,
}

/// The numbers of events and counts of the run that was found that nobody reported.
#[derive(Clone, Copy, Debug, Serialize)]
pub(super) struct Found {
    pub(super) sends: u64,
    pub(super) receives: u64,
    pub(super) counts: u64,
}

#[derive(Clone, Debug, Default)]
pub(super) struct Judged {
    pub(super) put_backs: Vec<PutBack>,
    pub(super) handed_over: Vec<HandedOver>,
    /// The sends and prints that no token of this trace gives.
    pub(super) ungiven: Vec<Place>,
    /// The first event of another process with the token of a send or print that is ungiven.
    pub(super) elsewhere: HashMap<Place, Place>,
    /// The first send or print of each process whose counter goes on from before the trace.
    pub(super) earlier: Vec<Place>,
    /// The receives whose unreported sends can have come before the trace.
    pub(super) sent_before: Vec<Place>,
    /// The other receives without a reported send.
    pub(super) unsent: Vec<Place>,
    /// The receives of messages that were sent less often than received.
    pub(super) doubled: Vec<Place>,
    /// The sends and prints before which a token was put back, but that may be earlier ones of
    /// their process, collected twice.
    pub(super) copies: Vec<Place>,
    pub(super) cycle: Vec<Place>,
    /// The sends whose receive wasn't reported.
    pub(super) waiting: Vec<Place>,
    /// A run that was found, if a kind of events wasn't reported.
    pub(super) found: Option<Found>,
    /// Tells whether messages to aliases and names explain receives.
    pub(super) has_strays: bool,
}

impl Judged {
    /// Judges a trace of which each send, receive and print was reported.
    pub(super) fn of(trace: &NodeTrace, names: &Names) -> Result<Judged, Failure> {
        let mut finding = trace.audit()?;
        let has_strays = pair_strays(trace, names, &mut finding);
        let sent = sent_contents(trace, &finding.unsent);
        let is_sent = |&place: &Place| {
            event_at(trace, place).is_some_and(|event| sent.contains(&MessageContent::of(&event)))
        };
        let waiting = std::mem::take(&mut finding.unreceived);
        let mut judged = Judged { waiting, has_strays, ..Judged::default() };
        let explainer = Explainer::new(trace, names, &judged.waiting);
        let has = |kind| trace.events(kind).next().is_some();
        let has_messages = has(Kind::Send) && has(Kind::Receive);
        judged.elsewhere = had_elsewhere(trace, &finding.places(is_ungiven));
        judged.go_on_from_before(trace, &mut finding, &explainer)?;
        if has_messages {
            let mut before = trace.sent_before(&finding.unsent);
            before.retain(|place| !is_sent(place) && judged.is_late_for(trace, *place));
            judged.sent_before = before;
        }
        let mut ungiven = finding.places(is_ungiven);
        if has_messages {
            let strange = ungiven.iter().copied().filter(|&place| {
                let may_have_saved = judged.is_late() && explainer.may_have_saved(place.0);
                !explainer.has_message(place) && !may_have_saved
            });
            judged.handed_over = handed_over(trace, &strange.collect::<Vec<_>>());
        }
        ungiven.retain(|place| !judged.is_handed_over(place));
        finding.unsent.retain(|place| judged.sent_before.binary_search(place).is_err());
        Ok(Judged {
            put_backs: put_backs(trace, &finding),
            ungiven,
            doubled: finding.unsent.iter().copied().filter(is_sent).collect(),
            unsent: finding.unsent,
            cycle: finding.cycle,
            ..judged
        })
    }

    /// Lets the counters of processes go on from before the trace if nothing of the trace gives
    /// their first send or print. If another process has its token, or only a saved one leads to
    /// it, the counter of a third one has to show that the trace began late.
    fn go_on_from_before(
        &mut self,
        trace: &NodeTrace,
        finding: &mut NodeFinding,
        explainer: &Explainer<'_>,
    ) -> Result<(), Failure> {
        let mut found = trace.from_before(finding)?;
        found.retain(|it| !explainer.has_message(it.place));
        let shows = |it: &FromBefore| !it.is_put_back && !self.elsewhere.contains_key(&it.place);
        let is_late = found.iter().any(shows);
        for FromBefore { place, ways, .. } in found.into_iter().filter(|_| is_late) {
            self.earlier.push(place);
            let Ok(at) = finding.ways.binary_search_by_key(&place.0, |it| it.0) else { continue };
            let own = &mut finding.ways[at].1;
            // A token from before the trace explains nothing later.
            if trace.is_wrapped() {
                *own = ways;
            }
            own[place.1 as usize] = Way::Plain;
        }
        Ok(())
    }

    /// Returns whether another process than the sender shows that the trace began late: the
    /// sender's counter alone would, if one of its events was lost.
    fn is_late_for(&self, trace: &NodeTrace, receive: Place) -> bool {
        let sender = event_at(trace, receive).map(|event| event.from);
        self.earlier.iter().any(|place| Some(place.0) != sender)
    }

    fn is_handed_over(&self, place: &Place) -> bool {
        self.handed_over.binary_search_by_key(place, |it| it.place).is_ok()
    }

    /// Returns whether the counter of a process shows that the trace began late.
    pub(super) fn is_late(&self) -> bool {
        !self.earlier.is_empty()
    }

    /// Judges a trace of which the manual's machine has no run. If it has no sends, no receives or
    /// no prints, a run is looked for that has such events.
    fn partial(trace: &NodeTrace, names: &Names) -> Result<Judged, Failure> {
        let mut judged = Judged::of(trace, names)?;
        let lacks = |kind| trace.events(kind).next().is_none();
        let is_partial = [Kind::Send, Kind::Receive, Kind::Print].into_iter().any(lacks)
            && trace.trace().events().all(|(_, event)| event.serial.this < COUNTS);
        let is_plain = judged.handed_over.is_empty() && judged.sent_before.is_empty();
        if is_partial && !(is_plain && judged.verdict() == Verdict::Fits) {
            let spawns = spawns(trace.trace(), names);
            let run = walk(trace, |event| {
                let request = event.to.and_then(|to| spawns.get(&(to, event.from)).copied());
                names.is_spawned(event.value) && request.unwrap_or(event.kind == Kind::Receive)
            });
            if run.stuck.is_empty() && lives::has_run(trace, &run)? {
                judged = Judged::found(trace, run, judged.waiting);
            } else if !run.stuck.is_empty() && (lacks(Kind::Send) || lacks(Kind::Receive)) {
                judged = Judged { ungiven: run.stuck, ..Judged::default() };
            }
        }
        judged.copies = copies(trace, names, &judged);
        judged.ungiven.retain(|place| judged.copies.binary_search(place).is_err());
        Ok(judged)
    }

    /// `waiting` are the sends without a reported receive.
    fn found(trace: &NodeTrace, run: Run, mut waiting: Vec<Place>) -> Judged {
        let sends = trace.events(Kind::Receive).count() - trace.pairs().len();
        waiting.retain(|send| !run.received.contains(send));
        Judged {
            earlier: run.earlier,
            found: Some(Found {
                sends: sends as u64,
                receives: run.received.len() as u64,
                counts: run.silent,
            }),
            put_backs: run.put_backs,
            waiting,
            ..Judged::default()
        }
    }

    /// Returns the judgement on a part of the trace.
    fn part(&self, kept: &Kept) -> Judged {
        let mut part = self.clone();
        let has = |place: &Place| has(kept, place);
        part.put_backs.retain(|it| has(&it.place));
        part.handed_over.retain(|it| has(&it.place));
        let Judged { ungiven, earlier, sent_before, unsent, .. } = &mut part;
        [ungiven, earlier, sent_before, unsent].into_iter().for_each(|it| it.retain(has));
        let Judged { doubled, copies, cycle, waiting, .. } = &mut part;
        [doubled, copies, cycle, waiting].into_iter().for_each(|it| it.retain(has));
        part
    }

    /// Returns whether it fits with tokens that were put back or handed over.
    fn puts_back(&self) -> bool {
        let has_some = !self.put_backs.is_empty() || !self.handed_over.is_empty();
        has_some && self.verdict() == Verdict::Fits
    }

    pub(super) fn is_unexplained(&self, place: Place) -> bool {
        self.ungiven.contains(&place) || self.unsent.contains(&place)
    }

    pub(super) fn verdict(&self) -> Verdict {
        if !self.cycle.is_empty() || !self.doubled.is_empty() {
            Verdict::Never
        } else if !self.ungiven.is_empty() || !self.unsent.is_empty() {
            Verdict::Unexplained
        } else if !self.copies.is_empty() {
            Verdict::Never
        } else {
            Verdict::Fits
        }
    }
}

fn is_ungiven(way: Way) -> bool {
    way == Way::Ungiven
}

/// Pairs the receives without a send with alike sends to unknown aliases and names, and takes both
/// away. Returns whether there are any.
fn pair_strays(trace: &NodeTrace, names: &Names, finding: &mut NodeFinding) -> bool {
    if finding.unsent.is_empty() {
        return false;
    }
    let strays = Strays::of(trace.trace(), names);
    let mut paired = HashSet::new();
    finding.unsent.retain(|&receive| {
        let alike = event_at(trace, receive).map(|event| strays.alike(&event));
        let send = alike.into_iter().flatten().find(|send| !paired.contains(*send));
        send.is_none_or(|&send| !paired.insert(send))
    });
    finding.unreceived.retain(|send| !paired.contains(send));
    !paired.is_empty()
}

/// Returns the contents of all messages that were sent, if a receive has no send.
fn sent_contents(trace: &NodeTrace, unsent: &[Place]) -> HashSet<MessageContent> {
    if unsent.is_empty() {
        return HashSet::new();
    }
    trace.events(Kind::Send).map(|(_, event)| MessageContent::of(event)).collect()
}

pub(super) fn event_at(trace: &NodeTrace, (pid, index): Place) -> Option<Event> {
    trace.trace().streams().event(pid, index)
}

/// Finds the sends and prints that show a put-back, or are ungiven, and are as an earlier one of
/// their process, if the node gave them no other time.
fn copies(trace: &NodeTrace, names: &Names, judged: &Judged) -> Vec<Place> {
    let time = |place| names.times()?.of_event(place);
    let key = |(place, event): (Place, &Event)| {
        (event.kind as u8, MessageContent::of(event), time(place))
    };
    let mut seen = HashSet::new();
    let again: HashSet<Place> = trace
        .trace()
        .events()
        .filter(|&(place, event)| event.kind != Kind::Receive && !seen.insert(key((place, event))))
        .map(|(place, _)| place)
        .collect();
    let shown = judged.put_backs.iter().filter(|it| !it.is_hidden).map(|it| it.place);
    let shown = shown.chain(judged.ungiven.iter().copied());
    let mut copies: Vec<Place> = shown.filter(|place| again.contains(place)).collect();
    copies.sort_unstable();
    copies
}

fn put_backs(trace: &NodeTrace, finding: &NodeFinding) -> Vec<PutBack> {
    let has_some = |(_, ways): &&(Pid, Vec<Way>)| {
        ways.iter().any(|way| matches!(way, Way::PutBack(_) | Way::Lowered(_)))
    };
    let of_process = |(pid, ways): &(Pid, Vec<Way>)| put_backs_of(trace, *pid, ways);
    finding.ways.iter().filter(has_some).flat_map(of_process).collect()
}

fn put_backs_of(trace: &NodeTrace, pid: Pid, ways: &[Way]) -> Vec<PutBack> {
    let events = trace.trace().streams().events(pid);
    let mut tokens = Tokens::default();
    let mut found = Vec::new();
    for ((event, way), index) in events.iter().zip(ways).zip(0..) {
        let (token, before, of) = match *way {
            Way::PutBack(token) => (token, index, tokens.last_of(token)),
            Way::Lowered(token) => (token, index - 1, tokens.earlier_of(token)),
            Way::Receive | Way::Plain | Way::Ungiven => {
                tokens.note(event.serial, index, trace.is_answer((pid, index)));
                continue;
            }
        };
        let (place, before, of) = ((pid, index), (pid, before), of.map(|of| (pid, of)));
        found.push(PutBack { place, before, token, of, is_hidden: false });
        tokens.note(event.serial, index, false);
    }
    found
}

/// The last event of a process with each serial.
#[derive(Debug, Default)]
struct Tokens {
    /// Without the last event.
    earlier: HashMap<(u64, u64), u64>,
    last: Option<((u64, u64), u64)>,
}

impl Tokens {
    /// Returns the last event with this token, of those before the last event.
    fn earlier_of(&self, token: Serial) -> Option<u64> {
        self.earlier.get(&(token.prev, token.this)).copied()
    }

    fn last_of(&self, token: Serial) -> Option<u64> {
        match self.last {
            Some((serial, index)) if serial == (token.prev, token.this) => Some(index),
            _ => self.earlier_of(token),
        }
    }

    /// With an event more; the token of an answer isn't taken.
    fn note(&mut self, serial: Serial, index: u64, is_answer: bool) {
        self.earlier.extend(self.last.take());
        self.last = (!is_answer).then_some(((serial.prev, serial.this), index));
    }
}
