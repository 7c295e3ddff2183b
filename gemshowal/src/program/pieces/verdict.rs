//! `verdict`: the three filters on one machine, around `sort`.

use super::judge::judge;
use super::scatter::Scatter;
use super::{gather, open, parts, BUFFER};
use crate::args::Verdict;
use crate::view::count;
use crate::{output, Ended, Failure};
use std::ffi::OsStr;
use std::io::{BufReader, BufWriter, Write};
use std::process::{Child, ChildStdin, ChildStdout, Command, Stdio};
use std::time::{Duration, Instant};

/// The memory for the sort of `judge`'s lines: there are few for each process.
const SMALL: &str = "64M";

/// The time between two lines of progress. What is done before the first says nothing.
const PAUSE: Duration = Duration::from_secs(10);

pub(super) fn verdict(args: &Verdict, out: &mut impl Write) -> Ended {
    let mut said = Instant::now();
    let mut events = Sort::start(&args.memory)?;
    let mut scatter = Scatter::new(BufWriter::with_capacity(BUFFER, events.input()?));
    for (file, part) in parts(&args.files, 0)? {
        let (name, input) = open(file)?;
        let taken = scatter.take(part, &name, input, |events| {
            say(&mut said, || format!("{} up to {name}", count(events, "event")));
        });
        taken.map_err(of_sort)?;
    }
    let total = scatter.events();
    scatter.finish().map_err(|_| failed())?;
    let mut pieces = Sort::start(OsStr::new(SMALL))?;
    let input = BufReader::with_capacity(BUFFER, events.output()?);
    let mut judged = BufWriter::with_capacity(BUFFER, pieces.input()?);
    let ended = judge("the sorted lines", input, &mut judged, |events| {
        say(&mut said, || format!("judged {events} of {}", count(total, "event")));
    });
    ended.map_err(of_sort)?;
    events.end()?;
    drop(judged);
    let found = gather::gather("the verdicts", BufReader::new(pieces.output()?), out)?;
    pieces.end()?;
    Ok(found)
}

/// Says how far it is, if the last time is long ago.
fn say(said: &mut Instant, words: impl FnOnce() -> String) {
    if said.elapsed() >= PAUSE {
        *said = Instant::now();
        output::complain(format_args!("{}\n", words()));
    }
}

/// A `sort` by bytes.
struct Sort(Child);

impl Sort {
    fn start(memory: &OsStr) -> Result<Sort, Failure> {
        let mut sort = Command::new("sort");
        sort.env("LC_ALL", "C").arg("--buffer-size").arg(memory);
        let child = sort.stdin(Stdio::piped()).stdout(Stdio::piped()).spawn();
        child.map(Sort).map_err(|error| Failure::Program(format!("sort can't be run: {error}")))
    }

    fn input(&mut self) -> Result<ChildStdin, Failure> {
        self.0.stdin.take().ok_or_else(failed)
    }

    fn output(&mut self) -> Result<ChildStdout, Failure> {
        self.0.stdout.take().ok_or_else(failed)
    }

    fn end(mut self) -> Result<(), Failure> {
        let is_done = self.0.wait().is_ok_and(|status| status.success());
        is_done.then_some(()).ok_or_else(failed)
    }
}

/// Says that `sort` failed, if it has gone and took no more lines.
fn of_sort(failure: Failure) -> Failure {
    match failure {
        Failure::Unwritten(_) => failed(),
        other => other,
    }
}

fn failed() -> Failure {
    Failure::Program("sort failed".to_owned())
}
