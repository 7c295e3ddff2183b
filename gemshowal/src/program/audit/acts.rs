//! Acts by which a standard node reports a trace. Each process does what its events show, and puts
//! back the tokens that the judgement names, and no others. Each message is received after it was
//! sent, and each token that was handed over is put back after another process had it.

use super::judged::{event_at, Judged, Verdict};
use crate::view::Place;
use gemshowal::{Act, Component, Event, Flags, Kind, Label, NodeAct, NodeTrace, Pid, Token, Want};
use std::collections::HashMap;

/// Each event was reported, so each token has all flags.
const FLAGS: Flags = Flags { send: true, receive: true, print: true };

/// Returns why there are no acts for a trace that is judged so, unless there are.
pub(super) fn missing(node: &NodeTrace, judged: &Judged, is_cut: bool) -> Option<&'static str> {
    let no_run = if node.is_wrapped() {
        "no run of exactly these events was found"
    } else {
        "the manual's machine has no run of it"
    };
    let reasons = [
        (judged.verdict() != Verdict::Fits, no_run),
        (is_cut, "the rules were asked of the whole trace"),
        (!judged.earlier.is_empty(), "counters go on from before the trace"),
        (judged.found.is_some(), "the run that was found has events that nobody reported"),
        (judged.has_strays, "it isn't known whose the aliases and names are"),
    ];
    reasons.into_iter().find(|(is_so, _)| *is_so).map(|(_, reason)| reason)
}

/// Builds the acts for a trace that fits, if nothing is missing for that.
pub(super) fn of(node: &NodeTrace, judged: &Judged) -> Vec<NodeAct> {
    let pids = node.trace().streams().pids();
    let mut run = Run::new(node, judged);
    // A tracer is one of a whole node.
    let nodes = pids.chunk_by(|one, other| one.node() == other.node());
    nodes.for_each(|own| run.act(Act::Tracer(own[0], true)));
    let mut going: Vec<Pid> = pids.iter().rev().copied().collect();
    while let Some(pid) = going.pop() {
        run.go_on(pid, &mut going);
    }
    run.acts
}

struct Run<'a> {
    node: &'a NodeTrace,
    /// The tokens that are put back right before events.
    put_back: HashMap<Place, Token>,
    /// The send of each receive, and the event that had a token which is handed over.
    causes: HashMap<Place, Place>,
    waiting: HashMap<Place, Vec<Pid>>,
    processes: HashMap<Pid, Process>,
    /// The numbers of sent messages, counted for each receiver.
    numbers: HashMap<Place, usize>,
    acts: Vec<NodeAct>,
}

#[derive(Debug, Default)]
struct Process {
    /// The index of the event that it reports next.
    next: u64,
    label: Option<Label>,
    queue: Queue,
}

impl<'a> Run<'a> {
    fn new(node: &'a NodeTrace, judged: &Judged) -> Run<'a> {
        let mut processes: HashMap<Pid, Process> = HashMap::new();
        for receiver in node.events(Kind::Send).filter_map(|(_, send)| send.to) {
            processes.entry(receiver).or_default().queue.receive_counts.push(0);
        }
        let put_backs = judged.put_backs.iter();
        let put_backs = put_backs.map(|it| (it.before, it.of.unwrap_or(it.place), it.token));
        let handed_over = judged.handed_over.iter().map(|it| (it.place, it.of, it.token));
        let restored = |(before, shown, serial)| {
            let event = event_at(node, shown)?;
            Some((before, Token { label: event.label, flags: FLAGS, serial, from: event.from }))
        };
        let sends = node.pairs().into_iter().map(|(send, receive)| (receive, send));
        let had = judged.handed_over.iter().map(|it| (it.place, it.of));
        Run {
            node,
            put_back: put_backs.chain(handed_over).filter_map(restored).collect(),
            causes: sends.chain(had).collect(),
            waiting: HashMap::new(),
            processes,
            numbers: HashMap::new(),
            acts: Vec::new(),
        }
    }

    /// Lets a process act up to an event that has to wait.
    fn go_on(&mut self, pid: Pid, going: &mut Vec<Pid>) {
        loop {
            let place = (pid, self.process(pid).next);
            let Some(event) = event_at(self.node, place) else { return };
            if let Some(cause) = self.causes.get(&place).copied() {
                if self.process(cause.0).next <= cause.1 {
                    self.waiting.entry(cause).or_default().push(pid);
                    return;
                }
            }
            self.report(place, &event);
            self.process(pid).next += 1;
            going.extend(self.waiting.remove(&place).into_iter().flatten());
        }
    }

    /// Adds the acts by which a process reports its next event.
    fn report(&mut self, place: Place, event: &Event) {
        let pid = place.0;
        if let Some(&token) = self.put_back.get(&place) {
            self.act(Act::Restore(pid, token));
            self.process(pid).label = Some(token.label);
        }
        match (event.kind, event.to) {
            (Kind::Receive, _) => self.receive(place, event.label),
            (Kind::Send, Some(to)) => {
                self.set_label(pid, event.label);
                let number = self.process(to).queue.put();
                self.numbers.insert(place, number);
                self.act(Act::Send(pid, to, event.value));
            }
            (Kind::Print | Kind::Send, _) => {
                self.set_label(pid, event.label);
                self.act(Act::Print(pid, event.value));
            }
        }
    }

    fn receive(&mut self, place: Place, label: Label) {
        let number = self.causes.get(&place).and_then(|send| self.numbers.get(send));
        let number = number.copied().unwrap_or_default();
        let at = self.process(place.0).queue.take(number);
        if self.node.is_answer(place) {
            self.acts.push(NodeAct::Answer(place.0, at));
        } else {
            self.process(place.0).label = Some(label);
            self.act(Act::Receive(place.0, Want::Place(at)));
        }
    }

    fn act(&mut self, act: Act) {
        self.acts.push(NodeAct::Common(act));
    }

    /// Gives the process's token a label, and all flags if it makes that token now.
    fn set_label(&mut self, pid: Pid, label: Label) {
        let before = self.process(pid).label.replace(label);
        if before != Some(label) {
            self.act(Act::Set(pid, Component::Label(label)));
        }
        if before.is_none() {
            let flags = [Component::Send(true), Component::Receive(true), Component::Print(true)];
            flags.into_iter().for_each(|flag| self.act(Act::Set(pid, flag)));
        }
    }

    fn process(&mut self, pid: Pid) -> &mut Process {
        self.processes.entry(pid).or_default()
    }
}

/// The messages to a process, numbered as they are sent.
#[derive(Debug, Default)]
struct Queue {
    messages: usize,
    /// Counts those that were received, in a tree: the entry at `n - 1` counts those from
    /// `n & (n - 1)` on, below `n`.
    receive_counts: Vec<u64>,
}

impl Queue {
    /// Puts a message into the queue, and returns its number.
    fn put(&mut self) -> usize {
        self.messages += 1;
        self.messages - 1
    }

    /// Takes a message, and returns its place in the queue.
    fn take(&mut self, number: usize) -> u64 {
        let place = number as u64 - self.received_below(number);
        let mut at = number + 1;
        while let Some(count) = self.receive_counts.get_mut(at - 1) {
            *count += 1;
            at += at & at.wrapping_neg();
        }
        place
    }

    fn received_below(&self, number: usize) -> u64 {
        let (mut at, mut sum) = (number, 0);
        while at > 0 {
            sum += self.receive_counts[at - 1];
            at &= at - 1;
        }
        sum
    }
}
