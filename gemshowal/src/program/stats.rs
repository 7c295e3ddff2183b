//! The command `stats`: the numbers of events and messages by process, pair and label.

use crate::names::Names;
use crate::object::Number;
use crate::reason::paired;
use crate::view::View;
use crate::{Ended, Status, Task};
use gemshowal::{Event, Kind, Label, NodeHop, NodeHops, OutOfMemory, Paired, Partner};
use gemshowal::{Pid, Text, Trace};
use serde::Serialize;
use std::collections::{BTreeMap, HashMap};
use std::fmt::{self, Display, Formatter};

pub(crate) fn run(task: Task<'_>) -> Ended {
    let Task { json, input, out, notes } = task;
    let (trace, names) = input.read(notes)?;
    let paired = paired(&View::whole(&trace, &names))?;
    let process = |(pid, events): (Pid, &[Event])| Process::of(pid, events, &names);
    let stats = Stats {
        processes: trace.processes().map(process).collect(),
        pairs: pairs(&trace, &paired, &names),
        labels: labels(&trace, &names)?,
    };
    out.tell(json, "counted", &stats)?;
    Ok(Status::Yes)
}

#[derive(Serialize)]
struct Stats {
    processes: Vec<Process>,
    pairs: Vec<Pair>,
    labels: Vec<LabelStats>,
}

#[derive(Serialize)]
struct Process {
    process: String,
    pid: Text<Pid>,
    sends: u64,
    receives: u64,
    prints: u64,
    /// The counts between the greatest one before a send or print and its own, of all these.
    skipped: Number,
}

#[derive(Serialize)]
struct Pair {
    from: String,
    to: String,
    from_pid: Text<Pid>,
    to_pid: Text<Pid>,
    messages: u64,
    unreceived: u64,
    unsent: u64,
}

#[derive(Default, Serialize)]
struct LabelStats {
    label: u32,
    term: String,
    events: u64,
    /// The messages on the longest way.
    depth: u64,
    /// The most messages at one depth.
    width: u64,
}

impl Display for Stats {
    fn fmt(&self, f: &mut Formatter<'_>) -> fmt::Result {
        for Process { process, sends, receives, prints, skipped, .. } in &self.processes {
            writeln!(
                f,
                "process {process}: sends {sends}, receives {receives}, prints {prints}, counts \
                 skipped {}",
                skipped.0
            )?;
        }
        for Pair { from, to, messages, unreceived, unsent, .. } in &self.pairs {
            writeln!(
                f,
                "messages from {from} to {to}: {messages}, without a reported receive \
                 {unreceived}, without a reported send {unsent}"
            )?;
        }
        for LabelStats { term, events, depth, width, .. } in &self.labels {
            writeln!(f, "label {term}: events {events}, depth {depth}, width {width}")?;
        }
        Ok(())
    }
}

impl Process {
    fn of(pid: Pid, events: &[Event], names: &Names) -> Process {
        let number = |kind| events.iter().filter(|event| event.kind == kind).count() as u64;
        let (mut clock, mut skipped) = (0_u64, 0_u64);
        for event in events {
            let this = event.serial.this;
            if event.kind != Kind::Receive {
                skipped = skipped.saturating_add(this.saturating_sub(clock).saturating_sub(1));
            }
            clock = clock.max(this);
        }
        Process {
            process: names.process(pid).into_owned(),
            pid: Text(pid),
            sends: number(Kind::Send),
            receives: number(Kind::Receive),
            prints: number(Kind::Print),
            skipped: Number(skipped),
        }
    }
}

/// Counts the messages with a reported end, by sender and receiver. A message with two is counted
/// at its send.
fn pairs(trace: &Trace, paired: &Paired<'_>, names: &Names) -> Vec<Pair> {
    let mut pairs = BTreeMap::<_, [u64; 3]>::new();
    for (place, event) in trace.events() {
        let Some(to) = event.to else { continue };
        let counts = match paired.partner(place, event.kind) {
            Partner::Nobody | Partner::Send(..) => continue,
            Partner::Receive(..) => [1, 0, 0],
            Partner::NoReceive => [1, 1, 0],
            Partner::NoSend => [1, 0, 1],
        };
        let sums = pairs.entry((event.from, to)).or_default();
        sums.iter_mut().zip(counts).for_each(|(sum, count)| *sum += count);
    }
    let pair = |((from, to), [messages, unreceived, unsent]): (_, [u64; 3])| Pair {
        from: names.process(from).into_owned(),
        to: names.process(to).into_owned(),
        from_pid: Text(from),
        to_pid: Text(to),
        messages,
        unreceived,
        unsent,
    };
    pairs.into_iter().map(pair).collect()
}

fn labels(trace: &Trace, names: &Names) -> Result<Vec<LabelStats>, OutOfMemory> {
    let mut labels = BTreeMap::<u32, LabelStats>::new();
    for (_, event) in trace.events() {
        labels.entry(event.label.0).or_default().events += 1;
    }
    for ((label, depth), number) in widths(trace)? {
        let of = labels.entry(label).or_default();
        (of.depth, of.width) = (of.depth.max(depth), of.width.max(number));
    }
    let named = |(label, stats)| LabelStats {
        label,
        term: names.label(Label(label)).into_owned(),
        ..stats
    };
    Ok(labels.into_iter().map(named).collect())
}

/// Counts each label's messages by their depth: one more than that of the message whose receive the
/// send follows. A message that nobody reported to be sent begins a way.
fn widths(trace: &Trace) -> Result<HashMap<(u32, u64), u64>, OutOfMemory> {
    let hops = NodeHops::of(trace.streams())?;
    let mut widths = HashMap::<(u32, u64), u64>::new();
    let mut sends = Vec::new();
    for (place, event) in trace.events() {
        match event.kind {
            Kind::Send => sends.push((event.serial.this, place, event)),
            Kind::Receive if hops.hop(place, event) == NodeHop::Unsent => {
                *widths.entry((event.label.0, 1)).or_default() += 1;
            }
            Kind::Receive | Kind::Print => {}
        }
    }
    // Takes them by rising counts: a send follows what has a lower one.
    sends.sort_unstable_by_key(|&(count, place, _)| (count, place));
    let depths = trace.processes().map(|(pid, events)| (pid, vec![0; events.len()]));
    let mut depths: HashMap<Pid, Vec<u64>> = depths.collect();
    for (_, place, event) in sends {
        let receive = match hops.hop(place, event) {
            NodeHop::After(receive) => trace.streams().event(place.0, receive).zip(Some(receive)),
            _ => None,
        };
        let sent = receive.map(|(event, index)| hops.hop((place.0, index), &event));
        let depth = match sent {
            None => 1,
            Some(NodeHop::Sent(pid, send)) => {
                1 + depths.get(&pid).map_or(0, |own| own[send as usize])
            }
            Some(_) => 2,
        };
        depths.entry(place.0).and_modify(|own| own[place.1 as usize] = depth);
        *widths.entry((event.label.0, depth)).or_default() += 1;
    }
    Ok(widths)
}
