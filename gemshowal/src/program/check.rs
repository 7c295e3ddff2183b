//! The commands `check` and `explain`: whether the acts of a text are a run that reports exactly
//! its events, and if not why. They make the run again up to the first act that reports something
//! else than the trace has, and show the act, the event that was due, the report that came, and the
//! actor's state before it with the messages that wait. If events are left at the end, they show
//! the state then. `check --node` goes by the rules of a standard node, and shows the act alone.

use crate::input::Input;
use crate::object::Number;
use crate::view::count;
use crate::{Ended, Failure, Status, Task};
use gemshowal::{Act, Came, Event, Kind, LineNumbers, NodeAct, NodeTrace, NodeVerdict};
use gemshowal::{OutOfMemory, Pid, Rerun, Text, Token, Trace, Verdict};
use serde::Serialize;
use std::collections::VecDeque;
use std::fmt::{self, Display, Formatter};

/// The greatest number of a queue's messages that are shown.
const SHOWN: usize = 10;

pub(crate) fn run(task: Task<'_>) -> Ended {
    let Task { json, input, out, .. } = task;
    let trace = input.trace()?;
    let no_acts = || Failure::NoActs(input.line_name().into());
    let acts = trace.acts().ok_or_else(no_acts)?;
    let found = match trace.check()?.ok_or_else(no_acts)? {
        Verdict::Yes(pairs) => {
            out.tell(json, "yes", &Yes { pairs: pairs.as_slice() })?;
            return Ok(Status::Yes);
        }
        Verdict::Stuck(number) | Verdict::Differs(number) => {
            let (before, rest) = acts.split_at(acts.len().min(number as usize));
            let act = rest.first().copied();
            Found::of(&trace, before, act, act.map_or(NOBODY, |act| act.actor()))?
        }
        Verdict::Left(pid) => Found::of(&trace, acts, None, pid)?,
    };
    out.tell(json, "no", &found)?;
    Ok(Status::No)
}

/// Checks by the rules of a standard node, whose acts may be ends of spawns.
pub(crate) fn run_on_node(task: Task<'_>) -> Ended {
    let Task { json, input, out, .. } = task;
    let (node, acts) = node_acts(input)?;
    let acts = acts.ok_or_else(|| Failure::NoActs(input.line_name().into()))?;
    let lines = node.trace().lines()?;
    let of_act = |number: u64| {
        let act = acts.get(number as usize);
        let text = act.map(|act| Text(act).to_string());
        Refused::at(act.map_or(NOBODY, NodeAct::actor), text.map(|text| (number, text)), &lines)
    };
    let (refused, word, status) = match node.check(&acts)? {
        NodeVerdict::Yes => (None, "yes", Status::Yes),
        NodeVerdict::Stuck(number) | NodeVerdict::Differs(number) => {
            (Some(of_act(number)), "no", Status::No)
        }
        NodeVerdict::Left(pid) => (Some(Refused::at(pid, None, &lines)), "no", Status::No),
    };
    out.tell(json, word, &OnNode { law: "node", refused })?;
    Ok(status)
}

fn node_acts(input: &mut Input) -> Result<(NodeTrace, Option<Vec<NodeAct>>), Failure> {
    if input.is_wrapped()? {
        return input.read_wrapped(NodeTrace::read_with_acts);
    }
    let trace = input.trace()?;
    let acts = trace.acts().map(|acts| acts.iter().copied().map(NodeAct::Common).collect());
    Ok((NodeTrace::new(trace, Vec::new()), acts))
}

#[derive(Serialize)]
struct OnNode {
    law: &'static str,
    #[serde(flatten)]
    refused: Option<Refused>,
}

impl Display for OnNode {
    fn fmt(&self, f: &mut Formatter<'_>) -> fmt::Result {
        let Some(refused) = &self.refused else {
            return writeln!(f, "yes: each process of a standard node reports exactly its events");
        };
        write!(f, "{refused}")?;
        if refused.act.is_some() {
            let process = refused.process;
            writeln!(f, "it reports something else than the next event of {process}")?;
        }
        Ok(())
    }
}

/// The act that reports something else than the trace has, or the process that has events left.
#[derive(Serialize)]
struct Refused {
    process: Text<Pid>,
    act: Option<u64>,
    line: Option<u64>,
    text: Option<String>,
}

impl Refused {
    fn at(pid: Pid, act: Option<(u64, String)>, lines: &LineNumbers<'_>) -> Refused {
        let (act, text) = act.unzip();
        Refused { process: Text(pid), act, line: act.and_then(|act| lines.act_line(act)), text }
    }
}

impl Display for Refused {
    fn fmt(&self, f: &mut Formatter<'_>) -> fmt::Result {
        match (self.act, &self.text) {
            (Some(act), Some(text)) => writeln!(f, "no: act {act}{}: {text}", on_line(self.line)),
            _ => writeln!(f, "no: the acts end, and {} has events left", self.process),
        }
    }
}

#[derive(Serialize)]
struct Yes<'a> {
    /// The numbers of the acts of each reported receive and of its send.
    pairs: &'a [(u64, u64)],
}

impl Display for Yes<'_> {
    fn fmt(&self, f: &mut Formatter<'_>) -> fmt::Result {
        let receives = count(self.pairs.len() as u64, "reported receive");
        let run = "each process reports exactly its events in a run of these acts";
        writeln!(f, "yes: {run}, with {receives}")
    }
}

/// A process that no trace lists: a run has no state of it.
const NOBODY: Pid = Pid::on(0, 0);

/// An act of this number that sent a message, and the token that the message got.
#[derive(Clone, Copy, Debug)]
struct Sent {
    act: u64,
    from: Pid,
    value: u64,
    token: Option<Token>,
}

/// A run of a text's acts, made again, with the messages that wait for one process.
struct Run {
    rerun: Rerun,
    pid: Pid,
    /// The number of acts that were made, and of the reports of the process.
    made: u64,
    reported: u64,
    waiting: VecDeque<Sent>,
    /// The number of the last reset of its node: it took the tokens of the messages sent before.
    reset: u64,
}

impl Run {
    fn take(&mut self, act: &Act) -> Result<Came, OutOfMemory> {
        let came = self.rerun.take(act)?;
        if let Came::Step(report, place) = came {
            self.reported += u64::from(act.actor() == self.pid && report.is_some());
            match *act {
                Act::Send(from, to, value) if to == self.pid => {
                    let token = self.rerun.state(from).and_then(|state| state.token());
                    self.waiting.push_back(Sent { act: self.made, from, value, token });
                }
                Act::Reset(actor) if actor.node() == self.pid.node() => self.reset = self.made,
                _ if act.actor() == self.pid => {
                    place.and_then(|place| self.waiting.remove(place as usize));
                }
                _ => {}
            }
        }
        self.made += 1;
        Ok(came)
    }

    /// Says which messages are in the queue: the first ones, and the one that is due.
    fn queue(&mut self, due: Option<Event>, lines: &LineNumbers<'_>) -> Vec<String> {
        let lost = self.waiting.iter_mut().filter(|sent| sent.act < self.reset);
        lost.for_each(|sent| sent.token = None);
        let is_due = |sent: &Sent| due.is_some_and(|event| sent.is_due(&event));
        let first = self.waiting.iter().position(is_due);
        let waiting = self.waiting.iter().enumerate();
        let shown = waiting.filter(|&(at, _)| at < SHOWN || Some(at) == first);
        let said = |(place, sent): (usize, &Sent)| {
            let Sent { act, from, value, token } = *sent;
            let token = token.map(|token| format!(", count {}", token.serial.this));
            let token = token.unwrap_or_else(|| ", without a token".into());
            let (from, line) = (Text(from), on_line(lines.act_line(act)));
            let due = if is_due(sent) { ": this one is due" } else { "" };
            format!("place {place}: {value} from {from}{token}, sent by act {act}{line}{due}")
        };
        shown.map(said).collect()
    }
}

impl Sent {
    /// Returns whether the receive of this message is reported as this event under a tracer.
    fn is_due(&self, receive: &Event) -> bool {
        self.token.is_some_and(|token| {
            token.flags.receive
                && (self.from, self.value) == (receive.from, receive.value)
                && (token.label, token.serial) == (receive.label, receive.serial)
        })
    }
}

#[derive(Serialize)]
struct Found {
    #[serde(flatten)]
    refused: Refused,
    came: Option<String>,
    #[serde(skip)]
    is_stuck: bool,
    due: Option<String>,
    due_index: Option<u64>,
    due_line: Option<u64>,
    token: Option<String>,
    clock: Option<Number>,
    last: Option<Number>,
    #[serde(skip)]
    is_traced: bool,
    messages: usize,
    #[serde(skip)]
    queue: Vec<String>,
}

impl Found {
    fn of(trace: &Trace, acts: &[Act], last: Option<Act>, pid: Pid) -> Result<Found, OutOfMemory> {
        let (lines, rerun) = (trace.lines()?, Rerun::new(trace.streams())?);
        let mut run = Run { rerun, pid, made: 0, reported: 0, waiting: VecDeque::new(), reset: 0 };
        for act in acts {
            run.take(act)?;
        }
        let (index, state) = (run.reported, run.rerun.state(pid));
        let due = trace.streams().event(pid, index);
        let is_traced = state.is_some_and(|state| state.traced());
        let receive = due.filter(|event| is_traced && event.kind == Kind::Receive);
        let (queue, messages) = (run.queue(receive, &lines), run.waiting.len());
        let (came, is_stuck) = match last.map(|act| run.take(&act)).transpose()? {
            Some(Came::Step(report, _)) => (report.map(|event| Text(&event).to_string()), false),
            came => (None, came.is_some()),
        };
        let act = last.map(|act| (acts.len() as u64, Text(&act).to_string()));
        Ok(Found {
            refused: Refused::at(pid, act, &lines),
            came,
            is_stuck,
            due: due.map(|event| Text(&event).to_string()),
            due_index: due.map(|_| index),
            due_line: due.and_then(|_| lines.line(pid, index)),
            token: state.and_then(|state| state.token()).as_ref().map(token_words),
            clock: state.map(|state| Number(state.clock())),
            last: state.map(|state| Number(state.last())),
            is_traced,
            messages,
            queue,
        })
    }
}

impl Display for Found {
    fn fmt(&self, f: &mut Formatter<'_>) -> fmt::Result {
        let Found { refused, queue, .. } = self;
        let process = refused.process;
        write!(f, "{refused}")?;
        match (self.due_index, &self.due) {
            (Some(index), Some(event)) => {
                let line = on_line(self.due_line);
                writeln!(f, "due: event {index} of {process}{line}\n  {event}")?;
            }
            _ => writeln!(f, "due: nothing, all events of {process} are reported")?,
        }
        match &self.came {
            Some(event) => writeln!(f, "came:\n  {event}")?,
            None if self.is_stuck => writeln!(f, "came: no step")?,
            None if refused.act.is_some() => writeln!(f, "came: no report")?,
            None => {}
        }
        writeln!(f, "state of {process}")?;
        let Some((Number(clock), Number(last))) = self.clock.zip(self.last) else { return Ok(()) };
        let token = self.token.as_deref().unwrap_or("none");
        writeln!(f, "  token {token}\n  clock {clock}\n  last {last}")?;
        if !self.is_traced {
            writeln!(f, "  no tracer on its node")?;
        }
        writeln!(f, "  messages in its queue {}", self.messages)?;
        queue.iter().try_for_each(|message| writeln!(f, "    {message}"))?;
        match self.messages - queue.len() {
            0 => Ok(()),
            more => writeln!(f, "    and {more} more"),
        }
    }
}

fn on_line(line: Option<u64>) -> String {
    line.map(|line| format!(", line {line}")).unwrap_or_default()
}

fn token_words(token: &Token) -> String {
    let flags = [
        (token.flags.send, " send"),
        (token.flags.receive, " receive"),
        (token.flags.print, " print"),
    ];
    let flags: String = flags.iter().filter(|(is_set, _)| *is_set).map(|it| it.1).collect();
    let (serial, from) = (Text(token.serial), Text(token.from));
    format!("label {}, flags{flags}, serial {serial}, from {from}", token.label.0)
}
