//! Looks for a run of a standard node that has a trace in which no send, no receive or no print was
//! reported. The processes go on with what needs no token to be put back as far as they can; then
//! the tokens are put back that cost least. So it is one run, and another may need fewer.

use super::judged::PutBack;
use crate::view::Place;
use gemshowal::{Event, Kind, NodeTrace, Pid, Serial};
use std::collections::{BTreeMap, HashMap, HashSet};

/// The costs of the steps before an event. Only what costs less than a token that is put back is
/// done at once.
const TAKEN: u64 = 1;
const PUT_BACK: u64 = 4;
const FROM_BEFORE: u64 = 100;

/// The run that was found, or how far it came.
#[derive(Debug, Default)]
pub(super) struct Run {
    pub(super) put_backs: Vec<PutBack>,
    /// The events before which a process begins anew, as a token was put back there.
    pub(super) begins: Vec<Place>,
    /// How often the other process of a message had begun anew by then, by the end that was
    /// reported.
    pub(super) ends: HashMap<Place, usize>,
    /// The prev that a send or print, or the message of a receive, has in the manual's machine.
    pub(super) prevs: HashMap<Place, u64>,
    /// The first sends and prints of processes whose counter goes on from before the trace.
    pub(super) earlier: Vec<Place>,
    /// The sends whose receive wasn't reported, though it shows.
    pub(super) received: HashSet<Place>,
    /// The number of counts that no event has.
    pub(super) silent: u64,
    /// The events that each process came to, if it couldn't go on.
    pub(super) stuck: Vec<Place>,
}

/// Walks through a trace of which these kinds of events were reported. `is_reply` tells of a send
/// whether it answers a spawn.
pub(super) fn walk(trace: &NodeTrace, is_reply: impl Fn(&Event) -> bool) -> Run {
    let mut walk = Walk::new(trace, &is_reply);
    let mut going: Vec<usize> = (0..walk.processes.len()).rev().collect();
    loop {
        while let Some(at) = going.pop() {
            walk.go_on(at, &mut going);
        }
        if !walk.put_back(&mut going) {
            return walk.ended();
        }
    }
}

/// A message whose receive isn't reported.
#[derive(Clone, Copy, Debug)]
struct Message {
    send: Place,
    serial: Serial,
    is_answer: bool,
}

impl Message {
    /// Returns the count that it brings.
    fn count(&self) -> u64 {
        if self.is_answer {
            self.serial.this.saturating_mul(16).saturating_add(15)
        } else {
            self.serial.this
        }
    }
}

#[derive(Clone, Copy, Debug)]
enum Step {
    Take(Message),
    PutBack(Serial),
    /// Puts back right before the receive that came last.
    Lower(Serial),
    /// Begins with a counter from before the trace.
    Begin(Serial),
}

/// The steps by which a process gets to a send or print.
#[derive(Debug)]
struct Plan {
    steps: Vec<Step>,
    cost: u64,
    silent: u64,
}

struct Process<'a> {
    pid: Pid,
    events: &'a [Event],
    at: usize,
    clock: u64,
    last: u64,
    /// The prev for which the manual's machine has 0.
    base: Option<u64>,
    /// Tells whether a reported receive came right before.
    has_received: bool,
    /// The tokens that it had or can have made, by prev and this, with the event that shows them.
    tokens: BTreeMap<(u64, u64), Option<Place>>,
    /// The greatest prev of a token, by its count.
    counts: BTreeMap<u64, u64>,
    /// The messages to it whose receive isn't reported, by count and by token.
    mail: BTreeMap<u64, Vec<Message>>,
    mail_by_token: BTreeMap<(u64, u64), Message>,
    /// The receives that wait for its unreported sends, by serial.
    unsent: BTreeMap<(u64, u64), Vec<Place>>,
    /// How often it receives each count from here on.
    later: HashMap<u64, u64>,
    begun: usize,
}

impl<'a> Process<'a> {
    fn new(pid: Pid, events: &'a [Event]) -> Process<'a> {
        let mut later = HashMap::new();
        for event in events.iter().filter(|event| event.kind == Kind::Receive) {
            *later.entry(event.serial.this).or_default() += 1;
        }
        Process {
            pid,
            events,
            at: 0,
            clock: 0,
            last: 0,
            base: None,
            has_received: false,
            tokens: BTreeMap::from([((0, 0), None)]),
            counts: BTreeMap::from([(0, 0)]),
            mail: BTreeMap::new(),
            mail_by_token: BTreeMap::new(),
            unsent: BTreeMap::new(),
            later,
            begun: 0,
        }
    }

    fn next(&self) -> Option<&'a Event> {
        self.events.get(self.at)
    }

    fn place(&self) -> Place {
        (self.pid, self.at as u64)
    }

    fn hold(&mut self, prev: u64, this: u64, of: Option<Place>) {
        let holder = self.tokens.entry((prev, this)).or_default();
        *holder = of.or(*holder);
        self.counts.entry(this).and_modify(|it| *it = prev.max(*it)).or_insert(prev);
    }

    fn receive(&mut self, serial: Serial, of: Place) {
        self.clock = self.clock.max(serial.this);
        self.last = serial.this;
        self.base = None;
        self.hold(serial.prev, serial.this, Some(of));
        self.hold(serial.prev, 0, None);
        self.hold(serial.this, 0, None);
    }

    fn answer(&mut self, count: u64) {
        (self.clock, self.last, self.base) = (count, count, None);
        self.hold(count, 0, None);
    }

    fn put_back(&mut self, token: Serial) {
        (self.clock, self.last, self.base) = (token.this, token.prev, None);
    }

    /// Sends or prints, and returns the prev that the manual's machine has for it.
    fn stamp(&mut self, serial: Serial, of: Option<Place>) -> u64 {
        let Serial { prev, this } = serial;
        if prev >= this {
            self.base = Some(prev);
        }
        (self.clock, self.last, self.has_received) = (this, prev, false);
        self.hold(prev, this, of);
        self.hold(prev, 0, None);
        if self.base == Some(prev) {
            0
        } else {
            prev
        }
    }

    /// Returns the token of this prev with the greatest count below this one.
    fn token(&self, prev: u64, below: u64) -> Option<Serial> {
        let (&(prev, this), _) = self.tokens.range((prev, 0)..(prev, below)).next_back()?;
        Some(Serial { prev, this })
    }

    /// Returns the token with the greatest count below this one.
    fn any_token(&self, below: u64) -> Option<Serial> {
        let (&this, &prev) = self.counts.range(..below).next_back()?;
        Some(Serial { prev, this })
    }

    fn message(&self, count: u64) -> Option<Message> {
        self.mail.get(&count)?.first().copied()
    }

    /// Returns the message of this prev with the greatest count below this one.
    fn message_of_token(&self, prev: u64, below: u64) -> Option<Message> {
        let mut tokens = self.mail_by_token.range((prev, 0)..(prev, below));
        tokens.next_back().map(|(_, message)| *message)
    }

    fn put_in(&mut self, message: Message) {
        self.mail.entry(message.count()).or_default().push(message);
        if !message.is_answer {
            self.mail_by_token.insert((message.serial.prev, message.serial.this), message);
        }
    }

    fn take_out(&mut self, message: Message) {
        if let Some(alike) = self.mail.get_mut(&message.count()) {
            alike.retain(|it| it.send != message.send);
            if alike.is_empty() {
                self.mail.remove(&message.count());
            }
        }
        let token = (message.serial.prev, message.serial.this);
        if self.mail_by_token.get(&token).is_some_and(|it| it.send == message.send) {
            self.mail_by_token.remove(&token);
        }
    }

    /// Returns the cheapest steps to a send or print of this serial.
    fn plan(&self, serial: Serial, gap: u64) -> Option<Plan> {
        let ways = self.ways(serial).into_iter();
        let plans = ways.filter_map(|steps| self.tried(steps, serial, gap));
        plans.min_by_key(|plan| plan.cost)
    }

    fn ways(&self, Serial { prev, this }: Serial) -> Vec<Vec<Step>> {
        use Step::{Begin, Lower, PutBack, Take};
        let message = self.message(prev);
        let raising = this.checked_sub(1).and_then(|count| self.message(count));
        let of_token = self.message_of_token(prev, this);
        let fresh = Serial { prev, this: 0 };
        let any = self.any_token(this);
        let mut ways = vec![vec![]];
        ways.extend(message.map(|it| vec![Take(it)]));
        ways.extend(raising.zip(message).map(|(first, it)| vec![Take(first), Take(it)]));
        ways.extend(self.token(prev, this).map(|token| vec![PutBack(token)]));
        ways.extend(of_token.map(|it| vec![Take(it), PutBack(it.serial)]));
        ways.extend(of_token.or(message).map(|it| vec![Take(it), PutBack(fresh)]));
        ways.extend(any.zip(message).map(|(token, it)| vec![PutBack(token), Take(it)]));
        if self.has_received {
            let higher = any.filter(|token| token.this > self.last);
            ways.push(vec![Lower(higher.unwrap_or(Serial { prev: 0, this: 0 }))]);
        }
        if self.at == 0 && self.tokens.len() == 1 && prev < this {
            ways.push(vec![Begin(Serial { prev, this: this - 1 })]);
        }
        ways
    }

    /// Returns the plan of these steps if they lead to a send or print of this serial.
    fn tried(&self, steps: Vec<Step>, serial: Serial, gap: u64) -> Option<Plan> {
        let (mut clock, mut last, mut cost) = (self.clock, self.last, 0);
        for step in &steps {
            (clock, last) = match step {
                Step::Take(it) if it.is_answer => (it.count(), it.count()),
                Step::Take(it) => (clock.max(it.serial.this), it.serial.this),
                Step::PutBack(token) | Step::Begin(token) => (token.this, token.prev),
                Step::Lower(token) => (token.this.max(last), last),
            };
            cost += match step {
                Step::Take(_) => TAKEN,
                Step::PutBack(_) | Step::Lower(_) => PUT_BACK,
                Step::Begin(_) => FROM_BEFORE,
            };
        }
        if last != serial.prev || clock >= serial.this {
            return None;
        }
        let silent = serial.this - clock - 1;
        Some(Plan { steps, cost: cost + if silent > 0 { gap } else { 0 }, silent })
    }
}

struct Walk<'a> {
    trace: &'a NodeTrace,
    is_reply: &'a dyn Fn(&Event) -> bool,
    processes: Vec<Process<'a>>,
    by_pid: HashMap<Pid, usize>,
    /// The send of each receive, if both kinds were reported.
    sends: HashMap<Place, Place>,
    /// The receives whose messages are there.
    ready: HashSet<Place>,
    has_sends: bool,
    has_receives: bool,
    /// The cost of missing counts.
    gap: u64,
    run: Run,
}

impl<'a> Walk<'a> {
    fn new(trace: &'a NodeTrace, is_reply: &'a dyn Fn(&Event) -> bool) -> Walk<'a> {
        let has = |kind| trace.events(kind).next().is_some();
        let processes: Vec<Process<'_>> =
            trace.trace().processes().map(|(pid, events)| Process::new(pid, events)).collect();
        let by_pid = processes.iter().zip(0..).map(|(process, at)| (process.pid, at)).collect();
        let gap = match (has(Kind::Send), has(Kind::Receive), has(Kind::Print)) {
            (true, false, true) => 2 * PUT_BACK,
            (true, false, false) => 2,
            _ => 1,
        };
        let mut walk = Walk {
            trace,
            is_reply,
            processes,
            by_pid,
            sends: trace.pairs().into_iter().map(|(send, receive)| (receive, send)).collect(),
            ready: HashSet::new(),
            has_sends: has(Kind::Send),
            has_receives: has(Kind::Receive),
            gap,
            run: Run::default(),
        };
        if !walk.has_sends {
            walk.note_unsent();
        }
        walk
    }

    /// Notes which sends weren't reported. What a process without events did isn't known: its
    /// messages are there from the beginning.
    fn note_unsent(&mut self) {
        for (place, event) in self.trace.events(Kind::Receive) {
            let sender = self.by_pid.get(&event.from).map(|&at| &mut self.processes[at]);
            match sender.filter(|sender| !sender.events.is_empty()) {
                Some(sender) => {
                    let serial = (event.serial.prev, event.serial.this);
                    sender.unsent.entry(serial).or_default().push(place);
                }
                None => {
                    self.ready.insert(place);
                }
            }
        }
    }

    /// Lets a process go on until it needs a token to be put back, or a message.
    fn go_on(&mut self, at: usize, going: &mut Vec<usize>) {
        loop {
            if let Some((serial, receive)) = self.hidden_send(at) {
                let silent = serial.this - self.processes[at].clock - 1;
                self.send_hidden(at, serial, receive, silent, going);
                continue;
            }
            let Some(event) = self.processes[at].next() else { return };
            if event.kind == Kind::Receive {
                if !self.is_there(self.processes[at].place()) {
                    return;
                }
                self.receive(at, event);
                continue;
            }
            match self.processes[at].plan(event.serial, self.gap) {
                Some(plan) if plan.cost < PUT_BACK => self.stamp(at, event, plan, going),
                _ => return,
            }
        }
    }

    /// Returns the unreported send that a process can make before its next event.
    fn hidden_send(&self, at: usize) -> Option<(Serial, Place)> {
        let process = &self.processes[at];
        let (clock, prev) = (process.clock, process.last);
        let next = clock.checked_add(1)?;
        let mut sends = process.unsent.range((prev, next)..=(prev, u64::MAX));
        let (&(_, this), receives) = sends.next()?;
        let is_due = match process.next() {
            Some(event) if event.kind == Kind::Receive => {
                this == next || process.later.get(&prev).is_none_or(|&left| left == 0)
            }
            Some(event) => event.serial.prev != prev || this < event.serial.this,
            None => true,
        };
        let receive = receives.first().copied();
        receive.filter(|_| is_due).map(|receive| (Serial { prev, this }, receive))
    }

    fn send_hidden(
        &mut self,
        at: usize,
        serial: Serial,
        receive: Place,
        silent: u64,
        going: &mut Vec<usize>,
    ) {
        let process = &mut self.processes[at];
        let key = (serial.prev, serial.this);
        if let Some(receives) = process.unsent.get_mut(&key) {
            receives.retain(|it| *it != receive);
            if receives.is_empty() {
                process.unsent.remove(&key);
            }
        }
        let prev = process.stamp(serial, None);
        self.run.prevs.insert(receive, prev);
        self.run.ends.insert(receive, process.begun);
        self.run.silent += silent;
        self.ready.insert(receive);
        going.extend(self.by_pid.get(&receive.0));
    }

    fn is_there(&self, receive: Place) -> bool {
        if !self.has_sends {
            return self.ready.contains(&receive);
        }
        let send = self.sends.get(&receive);
        send.is_some_and(|(pid, index)| {
            self.by_pid.get(pid).is_some_and(|&at| self.processes[at].at as u64 > *index)
        })
    }

    fn receive(&mut self, at: usize, event: &Event) {
        let is_answer = self.is_answer(at, event);
        let process = &mut self.processes[at];
        let place = process.place();
        if let Some(left) = process.later.get_mut(&event.serial.this) {
            *left -= 1;
        }
        if is_answer {
            process.answer(event.serial.this.saturating_mul(16).saturating_add(15));
            process.has_received = false;
        } else {
            process.receive(event.serial, place);
            process.has_received = true;
        }
        process.at += 1;
    }

    /// Returns whether a process's next event is the answer of a spawn. If the request wasn't
    /// reported, it may be that of `spawn_request`, which is received as other messages are.
    fn is_answer(&self, at: usize, event: &Event) -> bool {
        let process = &self.processes[at];
        let goes_on =
            |next: &Event| next.kind != Kind::Receive && next.serial.prev == event.serial.this;
        self.trace.is_answer(process.place())
            || !self.has_sends
                && (self.is_reply)(event)
                && !process.events.get(process.at + 1).is_some_and(goes_on)
    }

    fn stamp(&mut self, at: usize, event: &Event, plan: Plan, going: &mut Vec<usize>) {
        let place = self.processes[at].place();
        self.take(at, &plan, place, false);
        let process = &mut self.processes[at];
        let prev = process.stamp(event.serial, Some(place));
        self.run.prevs.insert(place, prev);
        process.at += 1;
        let to = event.to.and_then(|to| self.by_pid.get(&to).copied());
        let Some(to) = to.filter(|_| event.kind == Kind::Send) else { return };
        if !self.has_receives {
            let is_answer = (self.is_reply)(event);
            self.processes[to].put_in(Message { send: place, serial: event.serial, is_answer });
        }
        going.push(to);
    }

    /// Takes the steps of a plan before the event at this place, which is the process's own or the
    /// receive of its unreported send.
    fn take(&mut self, at: usize, plan: &Plan, place: Place, is_hidden: bool) {
        self.run.silent += plan.silent;
        for step in &plan.steps {
            match *step {
                Step::Take(message) => self.take_message(at, message),
                Step::PutBack(token) => {
                    self.begin_anew(at, token, 0, (place, is_hidden));
                    self.processes[at].put_back(token);
                }
                Step::Lower(token) => {
                    self.begin_anew(at, token, 1, (place, is_hidden));
                    let process = &mut self.processes[at];
                    process.clock = token.this.max(process.last);
                }
                Step::Begin(token) => {
                    self.run.earlier.push(place);
                    self.processes[at].put_back(token);
                }
            }
        }
    }

    fn take_message(&mut self, at: usize, message: Message) {
        let process = &mut self.processes[at];
        process.take_out(message);
        self.run.received.insert(message.send);
        self.run.ends.insert(message.send, process.begun);
        if message.is_answer {
            process.answer(message.count());
        } else {
            process.receive(message.serial, message.send);
        }
    }

    /// Notes that a token was put back, before so many of the events that the process has taken.
    fn begin_anew(
        &mut self,
        at: usize,
        token: Serial,
        taken: usize,
        (place, is_hidden): (Place, bool),
    ) {
        let process = &mut self.processes[at];
        let begin = (process.pid, (process.at - taken) as u64);
        let before = if is_hidden && taken == 0 { place } else { begin };
        let of = process.tokens.get(&(token.prev, token.this)).copied().flatten();
        process.begun += 1;
        self.run.begins.push(begin);
        self.run.put_backs.push(PutBack { place, before, token, of, is_hidden });
    }

    /// Puts back the tokens that cost least, of those that let a process go on.
    fn put_back(&mut self, going: &mut Vec<usize>) -> bool {
        let waiting: Vec<(usize, u64)> =
            (0..self.processes.len()).filter_map(|at| Some((at, self.due(at)?.2.cost))).collect();
        let Some(least) = waiting.iter().map(|(_, cost)| *cost).min() else { return false };
        for (at, _) in waiting.into_iter().filter(|(_, cost)| *cost == least) {
            let Some((sender, event, plan)) = self.due(at).filter(|due| due.2.cost == least) else {
                continue;
            };
            if sender == at && event.kind != Kind::Receive {
                self.stamp(at, event, plan, going);
            } else {
                let receive = self.processes[at].place();
                self.take(sender, &plan, receive, true);
                self.send_hidden(sender, event.serial, receive, 0, going);
                going.push(sender);
            }
            going.push(at);
        }
        true
    }

    /// Returns the process that must do something so that this one can go on, for which event, and
    /// what.
    fn due(&self, at: usize) -> Option<(usize, &'a Event, Plan)> {
        let process = &self.processes[at];
        let event = process.next()?;
        if event.kind != Kind::Receive {
            return Some((at, event, process.plan(event.serial, self.gap)?));
        }
        if self.has_sends || self.is_there(process.place()) {
            return None;
        }
        let sender = *self.by_pid.get(&event.from)?;
        let plan = self.processes[sender].plan(event.serial, self.gap)?;
        (plan.cost < FROM_BEFORE).then_some((sender, event, plan))
    }

    fn ended(mut self) -> Run {
        let left = self.processes.iter().filter(|process| process.next().is_some());
        self.run.stuck = left.map(Process::place).collect();
        self.run
    }
}
