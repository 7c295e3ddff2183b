//! The command `why`: the causes of an event, one after the other, or its effects.

use crate::args::Why;
use crate::audit::headline_of_node;
use crate::causes::{with_causes, Cause, Causes, Grade, Link, Links};
use crate::object::{kind_word, object, Number};
use crate::output::Output;
use crate::view::View;
use crate::{words, Ended, Failure, Status, Task};
use gemshowal::{Item, Kind, LineNumbers, Text};
use serde::ser::{SerializeMap, Serializer};
use serde::Serialize;
use std::collections::{HashMap, HashSet};
use std::io::{self, Write};

/// The greatest number of hops that are indented: more would move a line off the screen.
const INDENT: usize = 16;

pub(crate) fn run(args: &Why, task: Task<'_>) -> Ended {
    let Task { json, input, out, notes } = task;
    let (trace, names) = input.read_node(notes)?;
    let place = names.find_event(trace.trace(), &args.event)?;
    let is_headed = json || !trace.is_ordered()?;
    let (headline, is_never) =
        if is_headed { headline_of_node(&trace, &names)? } else { (String::new(), false) };
    let links = Links::of(trace.trace(), &names, |place| trace.is_answer(place))?;
    let view = View::whole(trace.trace(), &names);
    let mut write = |causes: &Causes<'_>, headline: &str| {
        let first = causes.item_at(place).unwrap_or(Item::Reported(place.0, place.1));
        let steps =
            if args.effects { forth(causes, first, args) } else { back(causes, first, args) };
        let answer = Answer { causes, headline, is_never, is_back: !args.effects, steps };
        if json {
            let result = if is_never { "never" } else { "found" };
            out.report(result, &answer.object(&trace.trace().lines()?))?;
        } else {
            answer.write(out)?;
        }
        Ok(Status::Yes)
    };
    let alone = Causes::alone(&view, &links);
    let is_enough = || {
        let way = back(&alone, Item::Reported(place.0, place.1), args);
        !json && !args.effects && way.iter().all(|step| !step.link.cause.is_open())
    };
    if is_never || trace.is_wrapped() || is_enough() {
        return write(&alone, &headline);
    }
    // The machine that completes a trace puts no token back, and says never of one that needs it.
    let completed = with_causes(&view, &links, |causes| match causes.never() {
        None => write(causes, &words::headline(causes)).map(Some),
        Some(_) => Ok(None),
    });
    match completed {
        Ok(Some(status)) => Ok(status),
        Ok(None) | Err(Failure::Never(_)) => write(&alone, &headline),
        Err(failure) => Err(failure),
    }
}

/// An event on the way back from another, or in the tree of what follows it.
struct Step {
    /// The number of hops from the first event.
    depth: usize,
    item: Item,
    link: Link,
}

/// Returns the event that another one follows, over a change of label only if asked to.
fn parent(link: Link, args: &Why) -> Option<Item> {
    match link.cause {
        Cause::Begins(had) => had.filter(|_| args.across),
        _ => link.follows(),
    }
}

/// Collects the event and its causes, up to this number of hops. Streams of which no order has each
/// receive after its send can lead to an event again, and there it ends.
fn back(causes: &Causes<'_>, first: Item, args: &Why) -> Vec<Step> {
    let (mut steps, mut seen) = (Vec::new(), HashSet::new());
    let mut next = Some(first);
    let is_reached = |item: &Item| matches!(item, Item::Reported(..));
    while let Some(item) = next.filter(is_reached).filter(|&item| seen.insert(item)) {
        if steps.len() as u64 >= args.depth {
            break;
        }
        let link = causes.link(item);
        next = parent(link, args);
        steps.push(Step { depth: steps.len(), item, link });
    }
    steps
}

/// Collects the event, and after each event those that follow it.
fn forth(causes: &Causes<'_>, first: Item, args: &Why) -> Vec<Step> {
    let mut children: HashMap<Item, Vec<Item>> = HashMap::new();
    for item in causes.items() {
        if let Some(parent) = parent(causes.link(item), args) {
            children.entry(parent).or_default().push(item);
        }
    }
    let (mut steps, mut seen) = (Vec::new(), HashSet::new());
    let mut waiting = vec![(0, first)];
    while let Some((depth, item)) = waiting.pop() {
        if !seen.insert(item) {
            continue;
        }
        steps.push(Step { depth, item, link: causes.link(item) });
        if (depth as u64) + 1 < args.depth {
            let below = children.remove(&item).unwrap_or_default();
            waiting.extend(below.into_iter().rev().map(|item| (depth + 1, item)));
        }
    }
    steps
}

/// The causes or the effects of an event, as they are said.
struct Answer<'a> {
    causes: &'a Causes<'a>,
    /// The first line of the audit.
    headline: &'a str,
    is_never: bool,
    is_back: bool,
    steps: Vec<Step>,
}

impl Answer<'_> {
    /// Says on what the links rest. The first event of a tree is there whatever it follows.
    fn rests_on(&self) -> Vec<String> {
        let said = self.steps.iter().skip(usize::from(!self.is_back));
        words::rests_on(said.map(|step| step.link))
    }

    fn write(&self, out: &mut Output) -> io::Result<()> {
        if self.is_never {
            writeln!(out, "{}", self.headline)?;
        }
        if self.is_back {
            self.write_back(out)?;
        } else {
            self.write_forth(out)?;
        }
        self.rests_on().iter().try_for_each(|line| writeln!(out, "{line}"))
    }

    fn write_back(&self, out: &mut Output) -> io::Result<()> {
        let mut follower: Option<Link> = None;
        for &Step { item, link, .. } in &self.steps {
            let (what, at) = (self.described(item), self.at(item));
            match follower {
                None => writeln!(out, "{what}, label {}{at}", words::label(self.causes, item))?,
                Some(Link { grade, cause, .. }) => {
                    let (perhaps, numbers) = (grade.perhaps(), grade.numbers());
                    let unreceived = words::unreceived(cause);
                    writeln!(out, "{perhaps}because {what}{unreceived}{at}{numbers}")?;
                }
            }
            follower = Some(link);
        }
        let Some(&Step { item, link, .. }) = self.steps.last() else { return Ok(()) };
        let name = self.causes.name(item);
        writeln!(out, "{}", words::follows(self.causes, item, &name, link))?;
        self.write_moved(out)
    }

    /// Says that the counters of the first event were moved, if its cause is known nevertheless.
    fn write_moved(&self, out: &mut Output) -> io::Result<()> {
        let Some(&Step { item, link, .. }) = self.steps.first() else { return Ok(()) };
        match (link.moved, link.cause) {
            (None, _) | (_, Cause::Moved(_) | Cause::Message(_)) => Ok(()),
            (Some(since), _) => {
                let (name, moved) =
                    (self.causes.name(item), words::moved(self.causes, item, since));
                writeln!(out, "the counts of {name} show that {moved}")
            }
        }
    }

    fn write_forth(&self, out: &mut Output) -> io::Result<()> {
        for &Step { depth, item, link } in &self.steps {
            let (what, at) = (self.described(item), self.at(item));
            let grade = if depth == 0 { Grade::Certain } else { link.grade };
            let indent = depth.min(INDENT) + 1;
            writeln!(out, "{depth}{:indent$}{}{what}{at}{}", "", grade.perhaps(), grade.numbers())?;
        }
        Ok(())
    }

    fn described(&self, item: Item) -> String {
        let (causes, name) = (self.causes, self.causes.name(item));
        let Some(event) = causes.event(item) else { return name };
        let (message, unreported) = (words::message(causes, item), words::unreported(causes, item));
        match (event.kind, event.to) {
            (Kind::Send, Some(to)) => {
                format!("{name} sent {message} to {}{unreported}", causes.process(to))
            }
            (Kind::Receive, _) => {
                let from = causes.process(event.from);
                format!("{name} received {message} from {from}{unreported}")
            }
            (Kind::Send | Kind::Print, _) => format!("{name} printed {message}{unreported}"),
        }
    }

    /// Says when an event happened, to be put after what it is.
    fn at(&self, item: Item) -> String {
        words::time(self.causes, item).map(|time| format!(", at {time}")).unwrap_or_default()
    }

    fn object<'a>(&'a self, lines: &'a LineNumbers<'a>) -> Object<'a> {
        let found = |step| Found { causes: self.causes, lines, step };
        Object {
            law: "node",
            direction: if self.is_back { "back" } else { "forth" },
            headline: self.headline,
            events: self.steps.iter().map(found).collect(),
            rests_on: self.rests_on(),
        }
    }
}

#[derive(Serialize)]
struct Object<'a> {
    /// The rules by which it was found.
    law: &'static str,
    direction: &'static str,
    headline: &'a str,
    events: Vec<Found<'a>>,
    rests_on: Vec<String>,
}

/// The event of the process since which counters were moved unseen; none: since its beginning.
#[derive(Serialize)]
struct Moved {
    since: Option<String>,
}

struct Found<'a> {
    causes: &'a Causes<'a>,
    lines: &'a LineNumbers<'a>,
    step: &'a Step,
}

impl Serialize for Found<'_> {
    fn serialize<S: Serializer>(&self, serializer: S) -> Result<S::Ok, S::Error> {
        let Found { causes, lines, step: &Step { depth, item, link } } = *self;
        let (names, event, place) = (causes.names(), causes.event(item), causes.place(item));
        let (word, after) = cause_word(link.cause);
        let moved = link.moved.map(|since| Moved { since: since.map(|item| causes.name(item)) });
        object!(serializer,
            "depth": depth,
            "event": causes.name(item),
            "pid": place.map(|(pid, _)| Text(pid)),
            "index": place.map(|(_, index)| index),
            "line": place.and_then(|(pid, index)| lines.line(pid, index)),
            "kind": event.map(|event| kind_word(event.kind)),
            "label": event.map(|event| names.label(event.label)),
            "from": event.map(|event| causes.process(event.from)),
            "to": event.and_then(|event| event.to).map(|to| causes.process(to)),
            "prev": event.map(|event| Number(event.serial.prev)),
            "this": event.map(|event| Number(event.serial.this)),
            "message": causes.message(item).map(|value| names.value(value)),
            "at": names.times().zip(place).and_then(|(times, place)| times.of_event(place)),
            "cause": word,
            "after": after.map(|item| causes.name(item)),
            "moved": moved,
            "grade": match link.grade {
                Grade::Certain => "certain",
                Grade::Under(_) => "premises",
                Grade::Perhaps => "perhaps",
            },
            "premises": link.grade.premises(),
        )
    }
}

fn cause_word(cause: Cause) -> (&'static str, Option<Item>) {
    match cause {
        Cause::After(Item::Hidden(..)) => ("unsent", None),
        Cause::After(item) => ("after", Some(item)),
        Cause::Message(send) => ("message", Some(send)),
        Cause::Begins(None) => ("begins", None),
        Cause::Begins(had) => ("other_label", had),
        Cause::Either(..) => ("several", None),
        Cause::Moved(_) => ("moved", None),
        Cause::Unknown => ("unknown", None),
    }
}
