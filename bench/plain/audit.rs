//! The auditor's construction, and the verdict on acts.

use crate::bundle::{Act, Component, Deed, Event, Flags, Kind, Pid, Place, Streams, Token, Want};
use crate::machine::{NO_FLAGS, Process, Stuck, World};
use crate::pairing::{At, Item, Pairs, Unfit, order};

const SKIP_ONCE: u64 = 1_000;
const SKIP_ALL: u64 = 1_000_000;

pub enum Verdict {
    Yes,
    Stuck(usize),
    Differs(usize),
    Left(Pid),
}

/// Follows acts, and compares what they report with the streams.
pub struct Checker<'a> {
    streams: &'a Streams,
    world: World,
    passed: Vec<usize>,
    number: u32,
    first_fault: Option<Verdict>,
    pub pairs: Vec<(u32, u32)>,
}

impl<'a> Checker<'a> {
    pub fn new(streams: &'a Streams) -> Checker<'a> {
        let (world, passed) = (World::new(&streams.pids), vec![0; streams.events.len()]);
        Checker { streams, world, passed, number: 0, first_fault: None, pairs: Vec::new() }
    }

    /// Makes the next act, unless one before it failed.
    #[inline]
    pub fn follow(&mut self, act: &Act) {
        let number = self.number;
        self.number += 1;
        if self.first_fault.is_some() {
            return;
        }
        let Ok(outcome) = self.world.step(act, number) else {
            self.first_fault = Some(Verdict::Stuck(number as usize));
            return;
        };
        let Some(report) = outcome.report else { return };
        let passed = &mut self.passed[act.actor as usize];
        if self.streams.events[act.actor as usize].get(*passed) != Some(&report) {
            self.first_fault = Some(Verdict::Differs(number as usize));
            return;
        }
        *passed += 1;
        if report.kind == Kind::Receive {
            self.pairs.push((number, outcome.sent));
        }
    }

    pub fn verdict(&mut self) -> Verdict {
        let left = |&process: &usize| self.passed[process] < self.streams.events[process].len();
        let left = (0..self.passed.len()).find(left);
        let left = left.map(|process| Verdict::Left(self.streams.pids.listed[process]));
        self.first_fault.take().or(left).unwrap_or(Verdict::Yes)
    }
}

/// The result of an audit: acts, or why there are none, with those that were tried if they say it.
pub enum Answer {
    Fits(Vec<Act>),
    Unfit(Unfit),
    NotReplayed(At, Verdict, Vec<Act>),
}

enum Stop {
    /// The construction goes no further; the verdict on its acts says why.
    Here,
    Reason(&'static str),
}

impl From<Stuck> for Stop {
    fn from(_: Stuck) -> Stop {
        Stop::Here
    }
}

struct Builder<'a> {
    streams: &'a Streams,
    pairs: &'a Pairs,
    world: World,
    acts: Vec<Act>,
    skips: u64,
    done: Vec<u32>,
}

impl Builder<'_> {
    fn act(&mut self, actor: Place, deed: Deed) -> Result<Option<Event>, Stop> {
        let act = Act { actor, deed };
        self.acts.push(act);
        Ok(self.world.step(&act, 0)?.report)
    }

    fn process(&self, place: Place) -> &Process {
        &self.world.processes[place as usize]
    }

    /// A tracer for each node that has a process.
    fn trace_all(&mut self) -> Result<(), Stop> {
        let mut node = None;
        for (place, &pid) in self.streams.pids.listed.iter().enumerate() {
            if node != Some(pid >> 16) {
                node = Some(pid >> 16);
                self.act(place as Place, Deed::Tracer(true))?;
            }
        }
        Ok(())
    }

    /// Gives the process a token with this label and these flags, unless it has one.
    fn dress(&mut self, actor: Place, label: u32, flags: Flags) -> Result<(), Stop> {
        let process = self.process(actor);
        if process.token.is_some_and(|token| token.label == label && token.flags == flags) {
            return Ok(());
        }
        let token = Token { prev: 0, this: 0, label, from: process.pid, flags };
        self.act(actor, Deed::Restore(token)).map(|_| ())
    }

    /// As many prints that nobody sees.
    fn skip(&mut self, actor: Place, label: u32, count: u64) -> Result<(), Stop> {
        if count > 0 {
            self.dress(actor, label, NO_FLAGS)?;
        }
        for _ in 0..count {
            self.act(actor, Deed::Print(0))?;
        }
        Ok(())
    }

    fn receive(&mut self, actor: Place, event: &Event) -> Result<Option<Event>, Stop> {
        let is_it = |token: &Token| token.from == event.from && token.this == event.this;
        let queue = &self.process(actor).queue;
        let place = queue.iter().position(|message| message.token.as_ref().is_some_and(is_it));
        let place = place.ok_or(Stop::Here)? as u64;
        self.act(actor, Deed::Receive(Want::Place(place)))
    }

    /// Brings clock and last to where the event has them, and makes the send or print.
    fn stamp(&mut self, actor: Place, item: &Item, event: &Event) -> Result<Option<Event>, Stop> {
        let Process { clock, last, .. } = *self.process(actor);
        if event.prev != last && event.prev < clock {
            return Err(Stop::Reason("uncaused"));
        }
        let skips = (event.this - 1).saturating_sub(clock);
        if skips > SKIP_ONCE || self.skips + skips > SKIP_ALL {
            return Err(Stop::Reason("toowide"));
        }
        self.skips += skips;
        if event.prev != last {
            self.skip(actor, event.label, event.prev - clock)?;
            self.act(actor, Deed::Clear)?;
            self.act(actor, Deed::Set(Component::Label(event.label)))?;
        }
        let rest = (event.this - 1).saturating_sub(self.process(actor).clock);
        self.skip(actor, event.label, rest)?;
        if event.kind == Kind::Print {
            self.dress(actor, event.label, Flags { print: true, ..NO_FLAGS })?;
            return self.act(actor, Deed::Print(event.value));
        }
        let At { process, index } = item.at;
        let receive = item.is_hidden || self.pairs.is_received[process as usize][index as usize];
        self.dress(actor, event.label, Flags { send: !item.is_hidden, receive, print: false })?;
        let to = self.streams.pids.place(event.to).ok_or(Stop::Here)?;
        self.act(actor, Deed::Send(to, event.value))
    }

    fn item(&mut self, item: &Item) -> Result<(), Stop> {
        let event = item.event(&self.streams.events);
        let process = item.at.process;
        if !item.is_hidden && item.at.index != self.done[process as usize] {
            return Err(Stop::Here);
        }
        let report = match event.kind {
            Kind::Receive => self.receive(process, &event)?,
            _ if item.is_hidden => {
                let sender = self.streams.pids.place(event.from).ok_or(Stop::Here)?;
                self.stamp(sender, item, &event)?
            }
            _ => self.stamp(process, item, &event)?,
        };
        if item.is_hidden {
            return Ok(());
        }
        self.done[process as usize] += 1;
        if report == Some(event) { Ok(()) } else { Err(Stop::Here) }
    }
}

pub fn audit(streams: &Streams) -> Answer {
    let pairs = match crate::pairing::pair(streams) {
        Ok(pairs) => pairs,
        Err(unfit) => return Answer::Unfit(unfit),
    };
    let items = order(streams, &pairs);
    let (world, done) = (World::new(&streams.pids), vec![0; streams.events.len()]);
    let acts = Vec::with_capacity(2 * items.len());
    let mut builder = Builder { streams, pairs: &pairs, world, acts, skips: 0, done };
    let mut at = items.first().map(|item| item.at);
    let begun = if items.is_empty() { Ok(()) } else { builder.trace_all() };
    let stop = begun.and_then(|()| {
        items.iter().try_for_each(|item| {
            at = Some(item.at);
            builder.item(item)
        })
    });
    if let (Err(Stop::Reason(word)), Some(at)) = (&stop, at) {
        return Answer::Unfit(Unfit { word, at, other: None });
    }
    let acts = builder.acts;
    let mut checker = Checker::new(streams);
    acts.iter().for_each(|act| checker.follow(act));
    match (checker.verdict(), at) {
        (Verdict::Yes, _) | (_, None) => Answer::Fits(acts),
        (verdict, Some(at)) => Answer::NotReplayed(at, verdict, acts),
    }
}
