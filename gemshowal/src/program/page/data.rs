//! The data of a page: the events of a trace, a list for each thing that is known of them.

use crate::causes::{Cause, Causes, Grade, Link};
use crate::chart::{lanes_and_rows, Row};
use crate::names::{Messages, Names, Times};
use crate::object::kind_letter;
use crate::times::{self as durations, Durations};
use crate::words;
use gemshowal::{Event, Item, Kind, Label, Pid, Text, Trace};
use serde::Serialize;
use std::collections::{BTreeMap, BTreeSet, HashMap};
use std::hash::Hash;

/// The greatest number of entries in a page's table of times.
const DURATIONS: usize = 200;

/// The greatest number of characters of all messages together: a page is one file that a browser
/// reads and keeps as a whole, and searches as a whole at each key.
const CHARACTERS: usize = 32_000_000;

const MICRO: i64 = 1_000;

#[derive(Serialize)]
pub(super) struct Data {
    title: String,
    headline: String,
    fits: bool,
    notes: Vec<String>,
    /// The time of the first event, in microseconds since 1970, if the clock of the node is known.
    begin: Option<i64>,
    durations: Vec<Table>,
    /// The length to which messages are cut, if they are.
    most: Option<usize>,
    limit: usize,
    rests_on: Vec<String>,
    terms: Vec<Term>,
    /// The number of the only label that is shown at first.
    only: Option<usize>,
    lanes: Vec<Lane>,
    labels: Vec<String>,
    rows: Rows,
}

#[derive(Serialize)]
struct Lane {
    name: String,
    pid: Text<Pid>,
    about: String,
}

#[derive(Serialize)]
struct Table {
    title: &'static str,
    more: usize,
    entries: Vec<(String, usize, i64, i64, i64)>,
}

/// A message: what a row shows, the text if that is another, and its length if that is cut.
#[derive(Serialize)]
#[serde(untagged)]
enum Term {
    Whole([String; 1]),
    Short([String; 2]),
    Cut(String, String, usize),
}

#[derive(Default, Serialize)]
struct Rows {
    lane: Vec<usize>,
    /// The lane at the other end; -1 of a print.
    other: Vec<i64>,
    /// A letter an event: send, receive, print, or hidden, a send that only its receive tells of.
    kind: String,
    /// A digit an event: whether it was reported.
    plain: String,
    /// A letter an event, for what it follows: its send, a receive, another label, either of two;
    /// it begins; its counters moved; or nothing is known.
    how: String,
    /// A sign an event: certain, perhaps, or its premises, mostly the last one's number.
    grade: String,
    label: Vec<usize>,
    /// The number of the message; -1 if nobody knows it.
    term: Vec<i64>,
    serial: Vec<String>,
    /// The text after the process's name in that of the event.
    at: Vec<String>,
    /// The row of the event that it follows, or -1.
    cause: Vec<i64>,
    /// The rows of the other events that a sentence names, -1 for none: the last receive before
    /// another label, either of two, and the event since which the counters moved.
    others: BTreeMap<usize, Vec<i64>>,
    time: Option<Vec<Option<i64>>>,
}

type Numbers<T> = HashMap<T, usize>;

fn numbers<T: Eq + Hash>(things: impl IntoIterator<Item = T>) -> Numbers<T> {
    things.into_iter().zip(0..).collect()
}

fn or_none<T: Eq + Hash>(numbers: &Numbers<T>, thing: Option<T>) -> i64 {
    thing.and_then(|thing| numbers.get(&thing)).map_or(-1, |&number| number as i64)
}

impl Data {
    pub(super) fn of(
        causes: &Causes<'_>,
        events: Vec<(Item, Event)>,
        title: &str,
        only: Option<Label>,
        messages: &Messages,
    ) -> Data {
        let (names, times) = (causes.names(), causes.names().times());
        let (lanes, rows) = lanes_and_rows(causes, events);
        let labels: BTreeSet<u32> = rows.iter().map(|row| row.event.label.0).collect();
        let values: BTreeSet<u64> = rows.iter().filter_map(|it| causes.message(it.item)).collect();
        let most = messages.most(&values, names, CHARACTERS);
        let places = numbers(labels.iter().copied());
        Data {
            title: title.into(),
            headline: words::headline(causes),
            fits: causes.never().is_none(),
            notes: words::losses(names).collect(),
            begin: times.and_then(Times::begin).map(|begin| begin / MICRO),
            durations: tables(causes.trace(), names),
            most,
            limit: CHARACTERS,
            rests_on: words::rests_on(rows.iter().map(|row| row.link)),
            terms: values.iter().map(|&value| Term::of(value, names, messages, most)).collect(),
            only: only.and_then(|label| places.get(&label.0).copied()),
            lanes: lanes.iter().map(|&pid| Lane::of(causes, pid)).collect(),
            labels: labels.iter().map(|&label| names.label(Label(label)).into_owned()).collect(),
            rows: Rows::of(causes, &rows, &places, &numbers(values.iter().copied())),
        }
    }
}

impl Lane {
    fn of(causes: &Causes<'_>, pid: Pid) -> Lane {
        let about = causes.names().about(pid).unwrap_or_default().to_owned();
        Lane { name: causes.process(pid).into_owned(), pid: Text(pid), about }
    }
}

impl Term {
    fn of(value: u64, names: &Names, messages: &Messages, most: Option<usize>) -> Term {
        let (brief, whole) = (names.brief(value).into_owned(), messages.text(value, names));
        let length = whole.chars().count();
        let cut = |text: &str, most| text.chars().take(most).collect::<String>();
        match most.filter(|&most| length > most) {
            Some(most) => Term::Cut(cut(&brief, most), cut(&whole, most), length),
            None if brief == whole => Term::Whole([brief]),
            None => Term::Short([brief, whole.into_owned()]),
        }
    }
}

impl Rows {
    fn of(causes: &Causes<'_>, chart: &[Row], labels: &Numbers<u32>, terms: &Numbers<u64>) -> Rows {
        let places = numbers(chart.iter().map(|row| row.item));
        let times = causes.names().times();
        let mut rows = Rows { time: times.map(|_| Vec::new()), ..Rows::default() };
        for (number, &Row { item, ref event, link, lane, other }) in chart.iter().enumerate() {
            rows.lane.push(lane);
            rows.other.push(other.map_or(-1, |lane| lane as i64));
            let is_hidden = matches!(item, Item::Hidden(..));
            rows.kind.push(if is_hidden { 'h' } else { kind_letter(event.kind) });
            rows.plain.push(if causes.reported(item).is_some() { '1' } else { '0' });
            rows.how.push(how(event.kind, link));
            rows.grade.push(grade(link.grade));
            rows.label.push(labels.get(&event.label.0).copied().unwrap_or_default());
            rows.term.push(or_none(terms, causes.message(item)));
            rows.serial.push(format!("{},{}", event.serial.prev, event.serial.this));
            rows.at.push(causes.number(item));
            rows.cause.push(or_none(&places, link.follows()));
            let others = others(link.cause).into_iter().map(|other| or_none(&places, other));
            if others.len() > 0 {
                rows.others.insert(number, others.collect());
            }
            if let (Some(column), Some(times)) = (&mut rows.time, times) {
                column.push(causes.place(item).and_then(|place| times.of_event(place)));
            }
        }
        rows
    }
}

fn how(kind: Kind, link: Link) -> char {
    match link.cause {
        Cause::After(_) if kind == Kind::Receive => 's',
        Cause::After(_) => 'r',
        Cause::Message(_) => 'g',
        Cause::Begins(None) => 'b',
        Cause::Begins(Some(_)) => 'l',
        Cause::Either(..) => 'e',
        Cause::Moved(_) => 'm',
        Cause::Unknown => 'u',
    }
}

fn others(cause: Cause) -> Vec<Option<Item>> {
    match cause {
        Cause::Begins(Some(had)) => vec![Some(had)],
        Cause::Either(one, other) => vec![one, other],
        Cause::Moved(since) => vec![since],
        Cause::After(_) | Cause::Message(_) | Cause::Begins(None) | Cause::Unknown => Vec::new(),
    }
}

fn grade(grade: Grade) -> char {
    match grade {
        Grade::Certain => 'c',
        Grade::Under([6, 7, 8]) => 'o',
        Grade::Under(premises) => premises.last().map_or('c', |&last| char::from(b'0' + last)),
        Grade::Perhaps => 'p',
    }
}

fn tables(trace: &Trace, names: &Names) -> Vec<Table> {
    let tables = [
        ("By processes", durations::by_processes(trace, names)),
        ("By kind of message", durations::by_kind(trace, names)),
    ];
    let entry = |it: Durations| (it.of, it.count, it.median, it.percent_99, it.greatest);
    let table = |(title, entries): (&'static str, Vec<Durations>)| Table {
        title,
        more: entries.len().saturating_sub(DURATIONS),
        entries: entries.into_iter().take(DURATIONS).map(entry).collect(),
    };
    tables.into_iter().filter(|(_, entries)| !entries.is_empty()).map(table).collect()
}
