//! Scripts that are driven: each process makes its acts, in their order, on a thread of its own.
//!
//! An act is made under the locks of the processes that it touches, which are taken by rising place. Its rank is one
//! more than the greatest that any of these has seen. So of two acts that touch a process in common the first has the
//! lower rank, and the acts by rising rank are a run.

use crate::bundle::{self, Deed, Event, Pid, Streams};
use crate::machine::{Process, Stuck};
use crate::writer::put_event;
use crate::{Failure, Out, for_each_act, put_streams};
use std::ops::Range;
use std::sync::{Mutex, MutexGuard, PoisonError};
use std::thread;

/// The stack of a thread, which needs little: there may be thousands.
const STACK_BYTES: usize = 1 << 16;

/// An act of a script, and its line of the text without the newline.
struct Step<'a> {
    deed: Deed,
    line: &'a [u8],
}

/// The content of a lock: a process, and the greatest rank of the acts that touched it. Neighbours share no pair of cache
/// lines.
#[repr(align(128))]
struct Held {
    process: Process,
    rank: usize,
}

/// The record of a process's acts: the rank of each, and the lines of what it reported.
struct Made {
    ranks: Vec<usize>,
    events: Vec<u8>,
}

impl AsRef<[u8]> for Made {
    fn as_ref(&self) -> &[u8] {
        &self.events
    }
}

/// The processes by rising pid, each under its lock.
struct System<'a> {
    pids: &'a [Pid],
    locks: Vec<Mutex<Held>>,
}

impl System<'_> {
    fn new(pids: &[Pid]) -> System<'_> {
        let held = |&pid: &Pid| Mutex::new(Held { process: Process::new(pid), rank: 0 });
        System { pids, locks: pids.iter().map(held).collect() }
    }

    /// Returns the content of this process's lock, even if a thread panicked.
    #[inline]
    fn lock(&self, place: usize) -> MutexGuard<'_, Held> {
        self.locks[place].lock().unwrap_or_else(PoisonError::into_inner)
    }

    /// The places of the processes of this one's node.
    fn node_of(&self, actor: usize) -> Range<usize> {
        let node = self.pids[actor] >> 16;
        let first = self.pids.partition_point(|pid| pid >> 16 < node);
        first..first + self.pids[first..].partition_point(|pid| pid >> 16 == node)
    }

    fn send(&self, actor: usize, to: usize, value: u64) -> Result<(usize, Option<Event>), Stuck> {
        let (mut low, mut high) = (self.lock(actor.min(to)), self.lock(actor.max(to)));
        let (own, other) = if actor < to { (&mut *low, &mut *high) } else { (&mut *high, &mut *low) };
        let (message, report) = own.process.send(self.pids[to], value, 0)?;
        other.process.queue.push_back(message);
        own.rank = 1 + own.rank.max(other.rank);
        other.rank = own.rank;
        Ok((own.rank, report))
    }

    fn send_to_itself(&self, actor: usize, value: u64) -> Result<(usize, Option<Event>), Stuck> {
        let mut own = self.lock(actor);
        let (message, report) = own.process.send(self.pids[actor], value, 0)?;
        own.process.queue.push_back(message);
        own.rank += 1;
        Ok((own.rank, report))
    }

    /// An act that changes each process of the actor's node.
    fn change_node(&self, actor: usize, change: impl Fn(&mut Process)) -> usize {
        let mut node: Vec<MutexGuard<Held>> = self.node_of(actor).map(|place| self.lock(place)).collect();
        let rank = 1 + node.iter().map(|held| held.rank).max().unwrap_or(0);
        for held in &mut node {
            change(&mut held.process);
            held.rank = rank;
        }
        rank
    }

    /// Makes an act: its rank and what it reports.
    #[inline]
    fn make(&self, actor: usize, deed: &Deed) -> Result<(usize, Option<Event>), Stuck> {
        match *deed {
            Deed::Send(to, value) if to as usize != actor => self.send(actor, to as usize, value),
            Deed::Send(_, value) => self.send_to_itself(actor, value),
            Deed::Reset => Ok((self.change_node(actor, Process::reset), None)),
            Deed::Tracer(is_on) => Ok((self.change_node(actor, |process| process.is_traced = is_on), None)),
            _ => {
                let mut own = self.lock(actor);
                let outcome = own.process.act_alone(deed)?;
                own.rank += 1;
                Ok((own.rank, outcome.report))
            }
        }
    }

    /// Makes the acts of one process. What it reports is written between its acts, when it holds no lock.
    fn play(&self, actor: usize, script: &[Step]) -> Result<Made, Stuck> {
        let mut made = Made { ranks: Vec::with_capacity(script.len()), events: Vec::new() };
        for step in script {
            let (rank, report) = self.make(actor, &step.deed)?;
            made.ranks.push(rank);
            if let Some(event) = report {
                put_event(&mut made.events, &event);
                made.events.push(b'\n');
            }
        }
        Ok(made)
    }
}

/// The acts of each process, in order.
fn scripts<'a>(bytes: &'a [u8], streams: &Streams) -> Result<Vec<Vec<Step<'a>>>, Failure> {
    let mut scripts: Vec<Vec<Step>> = streams.pids.listed.iter().map(|_| Vec::new()).collect();
    for_each_act(bytes, streams, |act, line| scripts[act.actor as usize].push(Step { deed: act.deed, line }))?;
    Ok(scripts)
}

/// Plays all scripts, each on a thread of its own.
fn play_all(pids: &[Pid], scripts: &[Vec<Step>]) -> Result<Vec<Made>, Failure> {
    let system = &System::new(pids);
    thread::scope(|scope| {
        let start = |(actor, script)| {
            let thread = thread::Builder::new().stack_size(STACK_BYTES);
            thread.spawn_scoped(scope, move || system.play(actor, script)).map_err(|_| Failure::Fault("thread"))
        };
        let threads: Vec<_> = scripts.iter().map(Vec::as_slice).enumerate().map(start).collect();
        let ended = |thread: Result<thread::ScopedJoinHandle<Result<Made, Stuck>>, Failure>| {
            let made = thread?.join().map_err(|_| Failure::Fault("thread"))?;
            made.map_err(|Stuck| Failure::Fault("act"))
        };
        threads.into_iter().map(ended).collect()
    })
}

/// The lines of all acts by rising rank, at one rank by process. Ranks begin at 1 and none is above the number of acts,
/// so they are counted and not compared.
fn merged<'a>(scripts: &[Vec<Step<'a>>], made: &[Made]) -> Vec<&'a [u8]> {
    let count = scripts.iter().map(Vec::len).sum();
    let mut places = vec![0; count + 2];
    for rank in made.iter().flat_map(|made| &made.ranks) {
        places[rank + 1] += 1;
    }
    for rank in 1..places.len() {
        places[rank] += places[rank - 1];
    }
    let mut lines: Vec<&[u8]> = vec![&[]; count];
    for (script, made) in scripts.iter().zip(made) {
        for (step, &rank) in script.iter().zip(&made.ranks) {
            lines[places[rank]] = step.line;
            places[rank] += 1;
        }
    }
    lines
}

/// Drives the scripts of a bundle's acts, and writes the bundle of the run that they made.
pub fn drive(bytes: &[u8], out: &mut Out) -> Result<u8, Failure> {
    let streams = bundle::read(bytes)?;
    let scripts = scripts(bytes, &streams)?;
    let made = play_all(&streams.pids.listed, &scripts)?;
    put_streams(&streams, &made, out)?;
    for line in merged(&scripts, &made) {
        out.line(|text| text.extend_from_slice(line))?;
    }
    Ok(0)
}
