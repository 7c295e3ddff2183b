//! The command `lint`: the mistakes of a text, and `--fix`.
//!
//! The proved reader alone decides whether a text is a trace's. If it refuses one, [`judge`] goes
//! through the lines.

mod grammar;
mod judge;
mod mend;
mod remedy;
mod text;

use crate::args::Lint;
use crate::object::{object, Number};
use crate::{Ended, Status, Task};
use arrayvec::ArrayVec;
use gemshowal::{OutOfMemory, Pid, ReadError, Trace};
use grammar::{Above, Sort};
use judge::{Findings, Mistake};
use serde::ser::{SerializeMap, Serializer};
use serde::Serialize;
use std::fmt::{self, Display, Formatter};

pub(crate) fn run(args: &Lint, task: Task<'_>) -> Ended {
    let Task { json, input, out, notes } = task;
    let bytes = input.bytes()?;
    if args.fix {
        return mend::run(&bytes, out, notes);
    }
    match judge_text(&bytes, args.most)? {
        Ok(trace) => {
            let (streams, acts) = (trace.streams(), trace.acts().map(<[_]>::len));
            let (processes, events) = (streams.pids().len(), Number(streams.total()));
            out.tell(json, "ok", &Counts { processes, events, acts })?;
            Ok(Status::Yes)
        }
        Err((status, findings)) => {
            let result = if status == Status::No { "unfit" } else { "faulty" };
            out.tell(json, result, &findings)?;
            Ok(status)
        }
    }
}

/// Describes the first mistake that makes the reader refuse a text, to be said after its name.
pub(crate) fn first_refused(text: &[u8]) -> Option<String> {
    let mistake = Findings::of(text, 0).first_refused?;
    Some(format!(", {}; {}", mistake.place(), mistake.remedy))
}

pub(crate) type Pids = ArrayVec<Pid, { grammar::MOST_PIDS }>;

/// Reads an act, and returns its pids and how many of them, the first ones, have to be listed.
pub(crate) fn read_act(line: &[u8]) -> Option<(Pids, usize)> {
    let (scan, sort) = grammar::read(line, Above::Acts);
    let listed = if sort.ok()? == Sort::SendAct { 2 } else { 1 };
    Some((scan.pids.iter().map(|&(_, pid)| pid).collect(), listed))
}

/// Judges a text, and names at most this many mistakes. The status of a text with mistakes says
/// whether it is a trace.
fn judge_text(
    bytes: &[u8],
    most: usize,
) -> Result<Result<Trace, (Status, Findings<'_>)>, OutOfMemory> {
    let status = match Trace::read(bytes) {
        // Asks that each serial rises: no run reports an event whose serial doesn't.
        Ok(trace) if trace.events().all(|(_, event)| event.serial.prev < event.serial.this) => {
            return Ok(Ok(trace))
        }
        Ok(_) => Status::No,
        Err(ReadError::Memory(error)) => return Err(error),
        Err(_) => Status::Faulty,
    };
    Ok(Err((status, Findings::of(bytes, most))))
}

impl Display for Findings<'_> {
    /// Shows the mistakes, and how many there are unless that is seen.
    fn fmt(&self, f: &mut Formatter<'_>) -> fmt::Result {
        let Findings { named, count, by_fix, .. } = self;
        for mistake in named {
            write!(f, "{mistake}")?;
        }
        if *count == 1 && *by_fix == 0 && !named.is_empty() {
            return Ok(());
        }
        write!(f, "{count} mistake{}", if *count == 1 { "" } else { "s" })?;
        if (named.len() as u64) < *count {
            write!(f, ", the first {} of them here (--most N names more)", named.len())?;
        }
        if *by_fix > 0 {
            write!(f, "; --fix mends {by_fix}")?;
        }
        writeln!(f)
    }
}

#[derive(Serialize)]
struct Counts {
    processes: usize,
    events: Number,
    acts: Option<usize>,
}

impl Display for Counts {
    fn fmt(&self, f: &mut Formatter<'_>) -> fmt::Result {
        let Counts { processes, events, acts } = self;
        writeln!(f, "ok\nprocesses {processes}\nevents {}", events.0)?;
        match acts {
            None => writeln!(f, "no acts"),
            Some(acts) => writeln!(f, "acts {acts}"),
        }
    }
}

impl Serialize for Mistake<'_> {
    fn serialize<S: Serializer>(&self, serializer: S) -> Result<S::Ok, S::Error> {
        object!(serializer,
            "line": self.line.number,
            "column": self.column + 1,
            "expected": self.wanted.to_string(),
            "remedy": self.remedy,
        )
    }
}
