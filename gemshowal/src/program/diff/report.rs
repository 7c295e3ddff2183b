//! The report on two traces, in lines and as JSON: the sums, and then process by process what is
//! gone, new and elsewhere.

use super::changes::Change;
use super::keys::Ranks;
use super::matching::{Ground, Pair, Pairs};
use super::side::Side;
use super::Found;
use crate::names::Names;
use crate::object::{kind_word, Fields, Place, Sequence};
use gemshowal::{Event, Kind, LineNumbers, Pid};
use serde::{Serialize, Serializer};
use std::fmt::{self, Display, Formatter};

pub(super) struct Text<'a> {
    pub(super) name: &'a str,
    pub(super) names: &'a Names,
    pub(super) lines: LineNumbers<'a>,
}

/// The first event of two matched processes whose counts have other ranks.
#[derive(Clone, Copy, Debug)]
pub(super) struct Moved {
    pair: Pair,
    index: usize,
    ranks: [[u64; 2]; 2],
    /// The number of events whose counts have other ranks.
    pub(super) count: usize,
}

impl Moved {
    /// Finds the event in traces whose processes are all matched and without other changes.
    pub(super) fn find(sides: [&Side<'_>; 2], ranks: &[Ranks; 2], pairs: &Pairs) -> Option<Moved> {
        let ([first, second], [ones, others]) = (sides, ranks);
        let has_same_counts = ones == others;
        let moved = |pair: Pair| {
            let events = first.events(pair.places[0]).iter().zip(second.events(pair.places[1]));
            let may_move = events
                .enumerate()
                .filter(move |(_, (one, other))| !has_same_counts || one.serial != other.serial);
            may_move.filter_map(move |(index, (one, other))| {
                let ranks = [ones.of_serial(one.serial), others.of_serial(other.serial)];
                (ranks[0] != ranks[1]).then_some(Moved { pair, index, ranks, count: 1 })
            })
        };
        let all = (0..first.len()).filter_map(|place| pairs.of_first(place)).flat_map(moved);
        all.reduce(|first, _| Moved { count: first.count + 1, ..first })
    }
}

pub(super) struct Report<'a> {
    pub(super) sides: [&'a Side<'a>; 2],
    pub(super) texts: &'a [Text<'a>; 2],
    pub(super) found: &'a Found,
}

#[derive(Clone, Copy, Debug, Serialize)]
struct Sums {
    gone: usize,
    new: usize,
    elsewhere: usize,
    gone_processes: usize,
    new_processes: usize,
    guesses: usize,
    /// The number of events whose counts have another rank, if all else is the same.
    counts: usize,
}

/// A line of the report: a process that is matched, or a difference, which is in JSON too.
#[derive(Serialize)]
#[serde(untagged)]
enum Line<'a> {
    #[serde(skip)]
    Matched(Pair),
    Process {
        change: &'static str,
        pid: gemshowal::Text<Pid>,
        #[serde(skip)]
        names: &'a Names,
    },
    Event {
        change: &'static str,
        #[serde(flatten)]
        row: Row<'a>,
        #[serde(skip_serializing_if = "Option::is_none")]
        now: Option<Row<'a>>,
    },
}

#[derive(Clone, Copy)]
struct Row<'a> {
    names: &'a Names,
    line: u64,
    place: (Pid, u64),
    event: &'a Event,
}

impl<'a> Report<'a> {
    pub(super) fn is_same(&self) -> bool {
        let Sums { gone_processes, new_processes, .. } = self.sums();
        self.found.changes.len() + gone_processes + new_processes == 0 && self.found.moved.is_none()
    }

    fn sums(&self) -> Sums {
        let [first, second] = self.sides;
        let (pairs, changes) = (&self.found.pairs.all, &self.found.changes);
        let elsewhere = changes.all[0].iter().filter(|it| it.elsewhere.is_some()).count();
        Sums {
            gone: changes.all[0].len() - elsewhere,
            new: changes.all[1].len() - elsewhere,
            elsewhere,
            gone_processes: first.len() - pairs.len(),
            new_processes: second.len() - pairs.len(),
            guesses: pairs.iter().filter(|pair| pair.ground.is_guess()).count(),
            counts: self.found.moved.map_or(0, |moved| moved.count),
        }
    }

    fn lines(&self) -> Vec<Line<'a>> {
        let (pairs, changes) = (&self.found.pairs, &self.found.changes);
        let names = self.texts.each_ref().map(|text| text.names);
        let mut lines = Vec::new();
        let pids = |it: usize| self.sides[it].pids().iter().map(|&pid| gemshowal::Text(pid));
        for (place, pid) in pids(0).enumerate() {
            let gone = of_process(&changes.all[0], place);
            let pair = pairs.of_first(place);
            let new = pair.map_or(&[][..], |pair| of_process(&changes.all[1], pair.places[1]));
            match pair {
                Some(_) if gone.is_empty() && new.is_empty() => {}
                Some(pair) => lines.push(Line::Matched(pair)),
                None => lines.push(Line::Process { change: "gone process", pid, names: names[0] }),
            }
            self.add_in_order(&mut lines, gone, new);
        }
        for (place, pid) in pids(1).enumerate() {
            if pairs.is_free(1, place) {
                lines.push(Line::Process { change: "new process", pid, names: names[1] });
                self.add_in_order(&mut lines, &[], of_process(&changes.all[1], place));
            }
        }
        if let Some(Moved { pair, index, .. }) = self.found.moved {
            let [row, now] = [0, 1].map(|it| self.row(it, pair.places[it], index));
            lines.extend(row.map(|row| Line::Event { change: "counts", row, now }));
        }
        lines
    }

    /// Adds the changes of two processes in their order; those elsewhere are told with the first's.
    fn add_in_order(&self, lines: &mut Vec<Line<'a>>, gone: &[Change], new: &[Change]) {
        let mut new = new.iter().peekable();
        let alone = |change: &Change| {
            let row = self.row(1, change.process, change.index);
            let row = row.filter(|_| change.elsewhere.is_none());
            row.map(|row| Line::Event { change: "new", row, now: None })
        };
        for change in gone {
            let before = std::iter::from_fn(|| new.next_if(|other| other.before < change.before));
            lines.extend(before.filter_map(alone));
            let other = change.elsewhere.map(|other| self.found.changes.all[1][other]);
            let now = other.and_then(|other| self.row(1, other.process, other.index));
            let word = if now.is_some() { "elsewhere" } else { "gone" };
            let row = self.row(0, change.process, change.index);
            lines.extend(row.map(|row| Line::Event { change: word, row, now }));
        }
        lines.extend(new.filter_map(alone));
    }

    fn row(&self, which: usize, process: usize, index: usize) -> Option<Row<'a>> {
        let (side, text) = (self.sides[which], &self.texts[which]);
        let place = (side.pids()[process], index as u64);
        let (names, event) = (text.names, &side.events(process)[index]);
        Some(Row { names, line: text.lines.line(place.0, place.1)?, place, event })
    }

    fn pids(&self, pair: Pair) -> [Pid; 2] {
        [0, 1].map(|it| self.sides[it].pids()[pair.places[it]])
    }

    /// Returns whether there may be fewer changes of a pair.
    fn is_coarse(&self, pair: Pair) -> bool {
        self.found.changes.is_coarse[pair.places[0]]
    }

    fn write_line(&self, f: &mut Formatter<'_>, line: &Line<'_>) -> fmt::Result {
        match line {
            Line::Matched(pair) => self.write_match(f, *pair),
            Line::Process { change, pid, names } => {
                writeln!(f, "{change} {}", names.process(pid.0))
            }
            Line::Event { change, row, now: None } => writeln!(f, "{change} {row}"),
            Line::Event { change, row, now: Some(now) } => {
                let (place, other) = (now.place(), now.other_end());
                match self.found.moved {
                    None => writeln!(f, "{change} {row}, now {place}{other}"),
                    Some(Moved { ranks: [[prev, this], [prev_now, this_now]], .. }) => writeln!(
                        f,
                        "{change} {row}, now {place} {}{other}; the ranks of its counts were \
                         {{{prev},{this}}} and are {{{prev_now},{this_now}}}",
                        gemshowal::Text(now.event.serial)
                    ),
                }
            }
        }
    }

    /// Writes which processes are matched, unless their pid or their name says it all.
    fn write_match(&self, f: &mut Formatter<'_>, pair: Pair) -> fmt::Result {
        let pids = self.pids(pair);
        let [one, other] = [0, 1].map(|it| self.texts[it].names.process(pids[it]));
        let (is_guess, is_coarse) = (pair.ground.is_guess(), self.is_coarse(pair));
        if one == other && !is_guess && !is_coarse {
            return Ok(());
        }
        write!(f, "process {one} is {other}")?;
        if is_guess {
            write!(f, ", a guess: {}", pair.ground.words())?;
        }
        if is_coarse {
            write!(f, "; compared coarsely, so there may be fewer changes")?;
        }
        writeln!(f)
    }
}

impl Display for Report<'_> {
    fn fmt(&self, f: &mut Formatter<'_>) -> fmt::Result {
        if self.is_same() {
            return writeln!(f, "same");
        }
        let Sums { gone, new, elsewhere, gone_processes, new_processes, guesses, counts } =
            self.sums();
        write!(
            f,
            "different: events gone {gone}, new {new}, elsewhere {elsewhere}; processes gone \
             {gone_processes}, new {new_processes}, matched by a guess {guesses}"
        )?;
        if counts > 0 {
            write!(f, "; counts of another rank {counts}")?;
        }
        writeln!(f)?;
        self.lines().iter().try_for_each(|line| self.write_line(f, line))?;
        if guesses > 0 {
            writeln!(f, "gemshowal diff --json has all matches, and which of them are guesses")?;
        }
        Ok(())
    }
}

impl Serialize for Report<'_> {
    /// Serializes the matched processes, by rising pid in the first trace, and then what differs.
    fn serialize<S: Serializer>(&self, serializer: S) -> Result<S::Ok, S::Error> {
        let matched = |pair: Pair| {
            let [process, is] = self.pids(pair).map(gemshowal::Text);
            let (because, coarse) = (pair.ground, self.is_coarse(pair));
            Matched { process, is, because, guess: because.is_guess(), coarse }
        };
        let pairs = || (0..self.sides[0].len()).filter_map(|it| self.found.pairs.of_first(it));
        let is_difference = |line: &Line<'_>| !matches!(line, Line::Matched(_));
        let object = Object {
            other: self.texts[1].name,
            certain: self.is_same() || self.found.is_certain,
            sums: self.sums(),
            processes: Sequence::of(move || pairs().map(matched)),
            changes: Sequence::of(|| self.lines().into_iter().filter(is_difference)),
        };
        object.serialize(serializer)
    }
}

fn of_process(changes: &[Change], process: usize) -> &[Change] {
    let start = changes.partition_point(|change| change.process < process);
    let end = changes.partition_point(|change| change.process <= process);
    &changes[start..end]
}

impl Row<'_> {
    fn place(&self) -> String {
        format!("{}: {} {}", self.line, self.names.process(self.place.0), self.place.1)
    }

    fn other_end(&self) -> String {
        match (self.event.kind, self.event.to) {
            (Kind::Send, Some(to)) => format!(" to {}", self.names.process(to)),
            (Kind::Receive, _) => format!(" from {}", self.names.process(self.event.from)),
            _ => String::new(),
        }
    }
}

impl Display for Row<'_> {
    fn fmt(&self, f: &mut Formatter<'_>) -> fmt::Result {
        let Row { names, event, .. } = self;
        let (label, value) = (names.label(event.label), names.value(event.value));
        let (place, kind, other) = (self.place(), kind_word(event.kind), self.other_end());
        let serial = gemshowal::Text(event.serial);
        write!(f, "{place}  {kind:<8} label {label} {serial} {value}{other}")
    }
}

#[derive(Serialize)]
struct Object<'a> {
    other: &'a str,
    /// Tells whether the result holds however processes are matched: it does if nothing differs.
    certain: bool,
    #[serde(flatten)]
    sums: Sums,
    processes: Sequence<'a, Matched>,
    changes: Sequence<'a, Line<'a>>,
}

#[derive(Serialize)]
struct Matched {
    process: gemshowal::Text<Pid>,
    is: gemshowal::Text<Pid>,
    because: Ground,
    guess: bool,
    /// Tells whether there may be fewer changes than are told.
    coarse: bool,
}

#[derive(Serialize)]
struct Placed {
    line: u64,
    #[serde(flatten)]
    place: Place,
    #[serde(flatten)]
    event: Fields,
}

impl Serialize for Row<'_> {
    fn serialize<S: Serializer>(&self, serializer: S) -> Result<S::Ok, S::Error> {
        let &Row { names, line, place, event } = self;
        let (place, event) = (Place::new(names, place), Fields::new(names, event));
        Placed { line, place, event }.serialize(serializer)
    }
}
