//! The machine: all processes, stepped by acts.

use crate::bundle::{Act, Component, Deed, Event, Flags, Kind, Pid, Pids, Place, Token, Want};
use std::collections::VecDeque;

pub const NO_FLAGS: Flags = Flags { send: false, receive: false, print: false };

/// A message that waits, and the act that sent it.
pub struct Message {
    pub from: Pid,
    pub value: u64,
    pub token: Option<Token>,
    pub sent: u32,
}

pub struct Process {
    pub pid: Pid,
    pub token: Option<Token>,
    pub clock: u64,
    pub last: u64,
    pub is_traced: bool,
    pub queue: VecDeque<Message>,
}

/// The report of an act, and for a receive the act that sent its message.
pub struct Outcome {
    pub report: Option<Event>,
    pub sent: u32,
}

const NOTHING: Outcome = Outcome { report: None, sent: 0 };

/// The act has no step: a clock is full.
pub struct Stuck;

pub struct World {
    pub processes: Vec<Process>,
}

impl Process {
    pub fn new(pid: Pid) -> Process {
        Process { pid, token: None, clock: 0, last: 0, is_traced: false, queue: VecDeque::new() }
    }

    #[inline]
    fn stamp(&mut self) -> Result<Option<Token>, Stuck> {
        let Some(token) = self.token.as_mut() else { return Ok(None) };
        self.clock = self.clock.checked_add(1).ok_or(Stuck)?;
        token.prev = self.last;
        token.this = self.clock;
        token.from = self.pid;
        Ok(Some(*token))
    }

    #[inline]
    fn report(&self, token: &Token, kind: Kind, to: Pid, value: u64) -> Option<Event> {
        let is_asked = match kind {
            Kind::Send => token.flags.send,
            Kind::Receive => token.flags.receive,
            Kind::Print => token.flags.print,
        };
        let Token { prev, this, label, from, .. } = *token;
        (self.is_traced && is_asked).then_some(Event { value, prev, this, label, from, to, kind })
    }

    fn set(&mut self, component: Component) {
        if self.token.is_none() {
            self.last = self.clock;
        }
        let fresh = Token { prev: 0, this: 0, label: 0, from: self.pid, flags: NO_FLAGS };
        let token = self.token.get_or_insert(fresh);
        match component {
            Component::Label(label) => token.label = label,
            Component::Send(is_on) => token.flags.send = is_on,
            Component::Receive(is_on) => token.flags.receive = is_on,
            Component::Print(is_on) => token.flags.print = is_on,
        }
    }

    #[inline]
    fn print(&mut self, value: u64) -> Result<Outcome, Stuck> {
        let token = self.stamp()?;
        let report = token.and_then(|token| self.report(&token, Kind::Print, 0, value));
        Ok(Outcome { report, sent: 0 })
    }

    /// The message of a send, which is still to be queued, and what the send reports.
    #[inline]
    pub fn send(&mut self, to: Pid, value: u64, number: u32) -> Result<(Message, Option<Event>), Stuck> {
        let token = self.stamp()?;
        let report = token.and_then(|token| self.report(&token, Kind::Send, to, value));
        Ok((Message { from: self.pid, value, token, sent: number }, report))
    }

    /// Makes an act that touches no other process. Of others nothing is made.
    #[inline]
    pub fn act_alone(&mut self, deed: &Deed) -> Result<Outcome, Stuck> {
        match *deed {
            Deed::Receive(want) => return Ok(self.receive(want)),
            Deed::Print(value) => return self.print(value),
            Deed::PrintAt(label, value) if self.token.is_some_and(|token| token.label == label) => {
                return self.print(value);
            }
            Deed::Set(component) => self.set(component),
            Deed::Clear => self.token = None,
            Deed::Restore(token) => self.token = Some(token),
            Deed::PrintAt(..) | Deed::Look | Deed::Send(..) | Deed::Reset | Deed::Tracer(_) => {}
        }
        Ok(NOTHING)
    }

    fn place_of_wanted(&self, want: Want) -> Option<usize> {
        match want {
            Want::First => Some(0),
            Want::From(pid) => self.queue.iter().position(|message| message.from == pid),
            Want::Value(value) => self.queue.iter().position(|message| message.value == value),
            Want::Both(pid, value) => {
                self.queue.iter().position(|message| message.from == pid && message.value == value)
            }
            Want::Place(place) => usize::try_from(place).ok(),
        }
    }

    #[inline]
    fn receive(&mut self, want: Want) -> Outcome {
        let message = match want {
            Want::First | Want::Place(0) => self.queue.pop_front(),
            _ => self.place_of_wanted(want).and_then(|place| self.queue.remove(place)),
        };
        let Some(Message { value, token, sent, .. }) = message else { return NOTHING };
        self.token = token;
        let Some(token) = token else { return Outcome { report: None, sent } };
        self.last = token.this;
        self.clock = self.clock.max(token.this);
        Outcome { report: self.report(&token, Kind::Receive, self.pid, value), sent }
    }

    pub fn reset(&mut self) {
        (self.token, self.clock, self.last) = (None, 0, 0);
        self.queue.iter_mut().for_each(|message| message.token = None);
    }
}

impl World {
    pub fn new(pids: &Pids) -> World {
        World { processes: pids.listed.iter().map(|&pid| Process::new(pid)).collect() }
    }

    fn on_node_of(&mut self, actor: Place) -> impl Iterator<Item = &mut Process> {
        let node = self.processes[actor as usize].pid >> 16;
        self.processes.iter_mut().filter(move |process| process.pid >> 16 == node)
    }

    fn send(&mut self, actor: Place, to: Place, value: u64, number: u32) -> Result<Outcome, Stuck> {
        let receiver = self.processes[to as usize].pid;
        let (message, report) = self.processes[actor as usize].send(receiver, value, number)?;
        self.processes[to as usize].queue.push_back(message);
        Ok(Outcome { report, sent: 0 })
    }

    /// Makes an act, whose number its message keeps.
    #[inline]
    pub fn step(&mut self, act: &Act, number: u32) -> Result<Outcome, Stuck> {
        match act.deed {
            Deed::Send(to, value) => return self.send(act.actor, to, value, number),
            Deed::Reset => self.on_node_of(act.actor).for_each(Process::reset),
            Deed::Tracer(is_on) => self.on_node_of(act.actor).for_each(|process| process.is_traced = is_on),
            deed => return self.processes[act.actor as usize].act_alone(&deed),
        }
        Ok(NOTHING)
    }
}
