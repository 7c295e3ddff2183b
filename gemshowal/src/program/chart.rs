//! The command `chart`: the messages of a label, with what each event follows, as text or drawn.

use crate::args::Chart as Args;
use crate::causes::{with_each, Causes, Link};
use crate::object::{kind_letter, kind_word};
use crate::output::Output;
use crate::view::{ends, View};
use crate::{moment, svg, words, Ended, Failure, Status, Task};
use gemshowal::{Event, Item, Label, Pid};
use std::collections::BTreeMap;
use std::io::{self, Write};
use std::path::{Path, PathBuf};

/// The characters of a message in a row, and of an event's name.
const MESSAGE: usize = 80;
const NAME: usize = 40;

/// The most marks of a chart, one for each lane in each row: more would be no text to look at.
const MOST_MARKS: usize = 100_000_000;

pub(crate) struct Row {
    pub(crate) item: Item,
    pub(crate) event: Event,
    pub(crate) link: Link,
    pub(crate) lane: usize,
    /// The lane at the other end of its message: its own lane if a process sends to itself.
    pub(crate) other: Option<usize>,
}

pub(crate) struct Chart {
    pub(crate) label: Label,
    pub(crate) lanes: Vec<Pid>,
    pub(crate) rows: Vec<Row>,
}

pub(crate) fn run(args: &Args, task: Task<'_>) -> Ended {
    let Task { input, out, notes, .. } = task;
    let (trace, names) = input.read(notes)?;
    let label = match (&args.label, &args.svg) {
        (None, None) => None,
        (label, _) => Some(names.find_label(&trace, label.as_deref())?),
    };
    let whole = View::whole(&trace, &names);
    let are_shown = with_each(&whole, |causes, part| {
        let found = Chart::of(causes, label)?;
        let marks = |chart: &Chart| chart.rows.len().saturating_mul(chart.lanes.len());
        if found.iter().any(|chart| marks(chart) > MOST_MARKS) {
            return Err(Failure::LongChart(input.line_name().into()));
        }
        if let (Some(file), Some(chart)) = (&args.svg, found.first()) {
            svg::write(&part_file(file, part), causes, chart)?;
        }
        write(causes, part, &found, out)?;
        Ok(!found.is_empty())
    })?;
    Ok(if are_shown.contains(&true) { Status::Yes } else { Status::No })
}

/// Names the file for the drawing of a part: `shop-2.svg`.
fn part_file(file: &Path, part: Option<(usize, usize)>) -> PathBuf {
    let Some((which, _)) = part else { return file.into() };
    let mut name = file.file_stem().unwrap_or_default().to_owned();
    name.push(format!("-{which}"));
    if let Some(extension) = file.extension() {
        name.push(".");
        name.push(extension);
    }
    file.with_file_name(name)
}

fn write(
    causes: &Causes<'_>,
    part: Option<(usize, usize)>,
    charts: &[Chart],
    out: &mut Output,
) -> io::Result<()> {
    if part.is_some_and(|(which, _)| which > 1) {
        writeln!(out)?;
    } else {
        words::losses(causes.names()).try_for_each(|loss| writeln!(out, "{loss}"))?;
    }
    if let Some(part) = part {
        writeln!(out, "{}", words::part(part))?;
    }
    writeln!(out, "{}", words::headline(causes))?;
    for (number, chart) in charts.iter().enumerate() {
        write!(out, "{}", if number > 0 { "\n" } else { "" })?;
        chart.write(causes, out)?;
    }
    let links = charts.iter().flat_map(|chart| &chart.rows).map(|row| row.link);
    words::rests_on(links).iter().try_for_each(|line| writeln!(out, "{line}"))
}

impl Chart {
    /// Makes the charts of this label, or of all labels, by rising label.
    pub(crate) fn of(causes: &Causes<'_>, label: Option<Label>) -> Result<Vec<Chart>, Failure> {
        let mut events: BTreeMap<u32, Vec<(Item, Event)>> = BTreeMap::new();
        for (item, event) in causes.ordered()? {
            if label.is_none_or(|label| label == event.label) {
                events.entry(event.label.0).or_default().push((item, event));
            }
        }
        let chart = |(label, events)| {
            let (lanes, rows) = lanes_and_rows(causes, events);
            Chart { label: Label(label), lanes, rows }
        };
        Ok(events.into_iter().map(chart).collect())
    }

    /// Writes the rows: a mark for each lane, the event's name, what it is and what it follows.
    fn write(&self, causes: &Causes<'_>, out: &mut Output) -> io::Result<()> {
        writeln!(out, "label {}", causes.names().label(self.label))?;
        for (&pid, number) in self.lanes.iter().zip(1..) {
            writeln!(out, "lane {number} {}", causes.process(pid))?;
        }
        let name = |row: &Row| short(&causes.name(row.item), NAME);
        let time = |row: &Row| {
            words::time(causes, row.item).map_or(String::new(), |time| format!("  {time}"))
        };
        let width = self.rows.iter().map(|row| name(row).chars().count()).max().unwrap_or(0);
        let wide = self.rows.iter().map(|row| time(row).len()).max().unwrap_or(0);
        for row in &self.rows {
            let (marks, name, time) = (self.marks(causes, row), name(row), time(row));
            let (kind, serial) = (kind_word(row.event.kind), gemshowal::Text(row.event.serial));
            let message = short(&words::message(causes, row.item), MESSAGE);
            let follows =
                words::follows(causes, row.item, "it", row.link) + &took(causes, row.item);
            writeln!(
                out,
                "{marks}  {name:width$}{time:>wide$}  {kind:<8}{serial} {message}  {follows}"
            )?;
        }
        Ok(())
    }

    /// Returns the marks of a row; small letters if nobody reported the event.
    fn marks(&self, causes: &Causes<'_>, row: &Row) -> String {
        let letter = kind_letter(row.event.kind);
        let is_reported = causes.reported(row.item).is_some();
        let mark = if is_reported { letter.to_ascii_uppercase() } else { letter };
        let of_lane = |lane| match lane {
            lane if lane == row.lane => mark,
            lane if Some(lane) == row.other => '.',
            _ => '|',
        };
        (0..self.lanes.len()).flat_map(|lane| [' ', ' ', ' ', of_lane(lane)]).collect()
    }
}

/// Returns the processes of some events, by rising pid, and a row for each event.
pub(crate) fn lanes_and_rows(
    causes: &Causes<'_>,
    events: Vec<(Item, Event)>,
) -> (Vec<Pid>, Vec<Row>) {
    let lanes = ends(events.iter().map(|(_, event)| event));
    let lane = |pid: Pid| lanes.binary_search(&pid).unwrap_or_default();
    let row = |(item, event): (Item, Event)| {
        let actor = causes.actor(item);
        let other = event.to.map(|to| lane(if actor == to { event.from } else { to }));
        Row { item, event, link: causes.link(item), lane: lane(actor), other }
    };
    let rows = events.into_iter().map(row).collect();
    (lanes, rows)
}

/// Says how long after its send a receive was reported.
fn took(causes: &Causes<'_>, item: Item) -> String {
    let times = causes.names().times().zip(causes.place(item));
    let took = times.and_then(|(times, place)| Some(times.of_message(place)?.1));
    took.map(|took| format!(", {} later", moment::seconds(took))).unwrap_or_default()
}

pub(crate) fn short(text: &str, most: usize) -> String {
    if text.chars().count() <= most {
        text.into()
    } else {
        text.chars().take(most - 3).chain("...".chars()).collect()
    }
}
