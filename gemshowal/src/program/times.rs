//! The command `times`: the times that messages and labels took.

use crate::chart::short;
use crate::export::work;
use crate::moment::{clock, seconds, span, spans};
use crate::names::{Names, Times};
use crate::output::Output;
use crate::view::{count, Place};
use crate::{words, Ended, Failure, Status, Task};
use gemshowal::{Event, Label, Trace};
use serde::Serialize;
use std::cmp::Reverse;
use std::collections::{BTreeMap, HashMap};
use std::io::{self, Write};

/// The greatest number of entries of a table that are printed; as JSON there are all of them.
const LISTED: usize = 20;

const CELL: usize = 40;

const MEANING: &str =
    "A message takes from its send until its receiver took it: waiting in the mailbox is in that.";

pub(crate) fn run(task: Task<'_>) -> Ended {
    let Task { json, input, out, notes } = task;
    let (trace, names) = input.read(notes)?;
    let Some(times) = names.times().filter(|times| times.count() > 0) else {
        return Err(Failure::NoTimes);
    };
    let tables = Tables {
        first: times.begin().map(clock),
        unit: "ns",
        by_processes: by_processes(&trace, &names),
        by_kind: by_kind(&trace, &names),
        labels: by_label(&trace, &names, times),
    };
    if json {
        out.report("timed", &tables)?;
    } else {
        words::losses(&names).try_for_each(|loss| writeln!(out, "{loss}"))?;
        writeln!(out, "{}\n{MEANING}", summary(&trace, times))?;
        tables.write(out)?;
    }
    Ok(Status::Yes)
}

#[derive(Serialize)]
struct Tables {
    /// The time of the first event, in UTC.
    first: Option<String>,
    unit: &'static str,
    by_processes: Vec<Durations>,
    by_kind: Vec<Durations>,
    labels: Vec<LabelTime>,
}

impl Tables {
    fn write(&self, out: &mut Output) -> io::Result<()> {
        if self.by_processes.is_empty() {
            writeln!(out, "no message has a time for both its send and its receive")?;
        } else {
            write_entries(out, "by processes", &self.by_processes)?;
            write_entries(out, "by kind of message", &self.by_kind)?;
        }
        let took = spans(&self.labels.iter().map(|label| label.took).collect::<Vec<_>>());
        let rows = self.labels.iter().zip(took).map(|(label, took)| {
            vec![label.label.clone(), label.events.to_string(), took, seconds(label.first)]
        });
        write_table(out, &["slowest labels", "events", "took", "from"], rows.collect())
    }
}

/// Says in a line over which time the events stretch, and how long messages took.
pub(crate) fn summary(trace: &Trace, times: &Times) -> String {
    let took = |(place, _)| Some(times.of_message(place)?.1);
    let mut took: Vec<i64> = trace.events().filter_map(took).collect();
    took.sort_unstable();
    let messages = match took.last() {
        None => String::new(),
        Some(&slowest) => format!(
            "; the median message took {}, the slowest {} ({})",
            span(took.get((took.len() - 1) / 2).copied().unwrap_or(slowest)),
            span(slowest),
            count(took.len() as u64, "message")
        ),
    };
    let before = match took.iter().filter(|&&took| took < 0).count() {
        0 => "",
        _ => "; some seem to take less than no time, since the clocks of two nodes differ",
    };
    let begin = times.begin().map(|begin| format!("; the first event was at {}", clock(begin)));
    let (first, last) = times.ends();
    let stretch = span(last.saturating_sub(first));
    format!(
        "{stretch} from the first event to the last{messages}{before}{}",
        begin.unwrap_or_default()
    )
}

fn write_entries(out: &mut Output, title: &str, entries: &[Durations]) -> io::Result<()> {
    let column = |time: fn(&Durations) -> i64| spans(&entries.iter().map(time).collect::<Vec<_>>());
    let columns = [
        column(|entry| entry.median),
        column(|entry| entry.percent_99),
        column(|entry| entry.greatest),
    ];
    let rows = entries.iter().enumerate().map(|(at, entry)| {
        let [median, most, greatest] = columns.each_ref().map(|column| column[at].clone());
        let (of, count, slowest) = (&entry.of, entry.count.to_string(), &entry.slowest);
        vec![of.clone(), count, median, most, greatest, slowest.clone()]
    });
    write_table(out, &[title, "count", "median", "99 %", "greatest", "which"], rows.collect())
}

/// Writes a table whose first column is aligned left, and whose others are aligned right.
fn write_table(out: &mut Output, titles: &[&str], rows: Vec<Vec<String>>) -> io::Result<()> {
    let more = rows.len().saturating_sub(LISTED);
    let titles = titles.iter().map(|title| (*title).to_owned()).collect();
    let shown: Vec<Vec<String>> = std::iter::once(titles)
        .chain(rows.into_iter().take(LISTED))
        .map(|row| row.iter().map(|cell| short(cell, CELL)).collect())
        .collect();
    let width = |column: usize| {
        shown.iter().filter_map(|row| row.get(column)).map(|cell| cell.chars().count()).max()
    };
    for row in &shown {
        for (cell, column) in row.iter().zip(0..) {
            let width = width(column).unwrap_or(0);
            if column == 0 {
                write!(out, "{cell:width$}")?;
            } else {
                write!(out, "  {cell:>width$}")?;
            }
        }
        writeln!(out)?;
    }
    if more > 0 {
        writeln!(out, "  and {more} more")?;
    }
    Ok(())
}

/// The times of some messages, in nanoseconds.
#[derive(Clone, Debug, PartialEq, Eq, Serialize)]
pub(crate) struct Durations {
    pub(crate) of: String,
    pub(crate) count: usize,
    /// The median, of two the lower.
    pub(crate) median: i64,
    /// The time within which 99 % of the messages were taken.
    pub(crate) percent_99: i64,
    pub(crate) greatest: i64,
    /// The receive of the message that took longest.
    pub(crate) slowest: String,
}

/// The time that a label took, from its first event with a time to the last.
#[derive(Clone, Debug, PartialEq, Eq, Serialize)]
pub(crate) struct LabelTime {
    pub(crate) label: String,
    pub(crate) events: usize,
    pub(crate) took: i64,
    pub(crate) first: i64,
}

impl Durations {
    /// Sums up these times, which have their receives; returns `None` if there are none.
    fn of(of: String, mut times: Vec<(i64, Place)>, names: &Names) -> Option<Durations> {
        times.sort_unstable();
        let count = times.len();
        let rank = |percent: usize| (percent * count).div_ceil(100).saturating_sub(1);
        let &(greatest, slowest) = times.last()?;
        let (median, _) = *times.get(rank(50))?;
        let (percent_99, _) = *times.get(rank(99))?;
        let slowest = names.event(slowest);
        Some(Durations { of, count, median, percent_99, greatest, slowest })
    }
}

/// Sums up the messages whose two ends have times, by a key of their receive, those with the
/// slowest message first.
fn by(trace: &Trace, names: &Names, key: impl Fn(&Event) -> String) -> Vec<Durations> {
    let mut groups: HashMap<String, Vec<(i64, Place)>> = HashMap::new();
    for (place, event) in trace.events() {
        if let Some((_, took)) = names.times().and_then(|times| times.of_message(place)) {
            groups.entry(key(event)).or_default().push((took, place));
        }
    }
    let mut found: Vec<Durations> =
        groups.into_iter().filter_map(|(of, times)| Durations::of(of, times, names)).collect();
    found.sort_unstable_by(|a, b| (Reverse(a.greatest), &a.of).cmp(&(Reverse(b.greatest), &b.of)));
    found
}

pub(crate) fn by_processes(trace: &Trace, names: &Names) -> Vec<Durations> {
    let to = |event: &Event| event.to.map(|to| names.process(to).into_owned()).unwrap_or_default();
    by(trace, names, |event| format!("{} -> {}", names.process(event.from), to(event)))
}

pub(crate) fn by_kind(trace: &Trace, names: &Names) -> Vec<Durations> {
    by(trace, names, |event| work::kind(names, event.value))
}

/// Returns the time of each label, the slowest first.
fn by_label(trace: &Trace, names: &Names, times: &Times) -> Vec<LabelTime> {
    let mut labels: BTreeMap<u32, (usize, i64, i64)> = BTreeMap::new();
    for (place, event) in trace.events() {
        if let Some(at) = times.of_event(place) {
            let (events, first, last) = labels.entry(event.label.0).or_insert((0, at, at));
            (*events, *first, *last) = (*events + 1, at.min(*first), at.max(*last));
        }
    }
    let of = |(label, (events, first, last)): (u32, (usize, i64, i64))| LabelTime {
        label: names.label(Label(label)).into_owned(),
        events,
        took: last.saturating_sub(first),
        first,
    };
    let mut labels: Vec<LabelTime> = labels.into_iter().map(of).collect();
    labels.sort_by_key(|label| Reverse(label.took));
    labels
}
