//! Finds events that only a message whose receive wasn't reported explains, in less time than a
//! judgement takes: their process had nothing with their prev, and the message brings it.

use crate::view::Place;
use gemshowal::{Event, Kind, MessageContent, NodeTrace, Pid, Serial, COUNTS};
use std::collections::{HashMap, HashSet};

/// Returns such sends and prints, by process. If no sends were reported, it returns those whose
/// prev no event of the trace can have brought. A process's first event isn't among them: its
/// counter may go on from before the trace.
pub(super) fn after_unreceived(trace: &NodeTrace) -> Vec<Place> {
    let has_sends = trace.events(Kind::Send).next().is_some();
    let mut sent = if has_sends { HashMap::new() } else { sent_prevs(trace) };
    let of_process = |(pid, events)| {
        let mut had = sent.remove(&pid).unwrap_or_default();
        let answered = |index| !has_sends || trace.is_answer((pid, index));
        with_new_prevs(events, &mut had, answered).into_iter().map(move |index| (pid, index))
    };
    let mut strange: Vec<Place> = trace.trace().processes().flat_map(of_process).collect();
    if has_sends {
        let key = |&(pid, index): &Place| {
            let event = trace.trace().streams().event(pid, index)?;
            Some((pid, event.serial.prev))
        };
        let unreceived = unreceived(trace, &strange.iter().filter_map(key).collect());
        strange.retain(|place| key(place).is_some_and(|it| unreceived.contains(&it)));
    }
    strange
}

/// Returns the prevs that a process had by its sends, if only their receives were reported.
fn sent_prevs(trace: &NodeTrace) -> HashMap<Pid, HashSet<u64>> {
    let mut sent: HashMap<Pid, HashSet<u64>> = HashMap::new();
    for (_, event) in trace.events(Kind::Receive) {
        sent.entry(event.from).or_default().insert(event.serial.prev);
    }
    sent
}

/// Finds the sends and prints whose prev the process didn't have before, after its first event.
/// `is_answer` tells of a receive whether it may answer a spawn.
fn with_new_prevs(
    events: &[Event],
    had: &mut HashSet<u64>,
    is_answer: impl Fn(u64) -> bool,
) -> Vec<u64> {
    had.insert(0);
    let (mut last, mut found) = (0, Vec::new());
    for (event, index) in events.iter().zip(0..) {
        let Serial { prev, this } = event.serial;
        if event.kind == Kind::Receive {
            had.extend([prev, this]);
            if is_answer(index) {
                let answered = this.wrapping_mul(16).wrapping_add(15);
                had.extend([answered, answered % COUNTS]);
            }
            last = this;
        } else {
            if prev != last && had.insert(prev) && index > 0 {
                found.push(index);
            }
            last = prev;
        }
    }
    found
}

/// Returns those of these receivers and counts for which a message was sent more often than
/// received.
fn unreceived(trace: &NodeTrace, wanted: &HashSet<(Pid, u64)>) -> HashSet<(Pid, u64)> {
    let mut left: HashMap<MessageContent, i64> = HashMap::new();
    for (_, event) in trace.trace().events() {
        if event.to.is_some_and(|to| wanted.contains(&(to, event.serial.this))) {
            let more = if event.kind == Kind::Send { 1 } else { -1 };
            *left.entry(MessageContent::of(event)).or_default() += more;
        }
    }
    let unreceived = left.into_iter().filter(|(_, left)| *left > 0);
    unreceived.filter_map(|(content, _)| Some((content.to?, content.this))).collect()
}
