//! The command `complete`: events that nobody reported, with which a run has the trace.

use crate::args::{Complete, Form};
use crate::certain::Certain;
use crate::object::{Fields, Number, Place as PlaceObject, Sequence};
use crate::reason::Against;
use crate::view::{count, short, Place, Shown, View};
use crate::{Ended, Failure, Status, Task};
use gemshowal::{Answer, Completion, Event, Kind, Pid};
use serde::Serialize;
use std::collections::{BTreeSet, HashSet};
use std::fmt::{self, Display, Formatter};

const NOTHING: &str =
    "adds nothing: the manual's machine has a run with exactly these sends and receives. That is \
     no evidence that nothing was lost. Events that counts alone show aren't added (gemshowal \
     audit counts them), and a message whose receive isn't reported may still wait.";
const LOST_ON_A_NODE: &str =
    "Not added, and certainly so on a node: before each of these its process received a message \
     of this count, and didn't report that:";

#[derive(Clone, Copy, PartialEq, Eq, PartialOrd, Ord, Serialize)]
#[serde(rename_all = "snake_case")]
enum Certainty {
    Certain,
    CertainOnANode,
    Perhaps,
}

impl Certainty {
    fn words(self) -> &'static str {
        match self {
            Certainty::Certain => "certainly",
            Certainty::CertainOnANode => "certainly on a node",
            Certainty::Perhaps => "perhaps",
        }
    }

    fn meaning(self) -> &'static str {
        match self {
            Certainty::Certain => {
                "Certainly: each run without a reset that has the trace has this send, or a \
                 receive of this count between the same reported events; on a standard node if its \
                 process put no token back and spawned no process."
            }
            Certainty::CertainOnANode => {
                "Certainly on a node: so it is on a standard node, where a trace that begins keeps \
                 the counters, if its process put no token back. This isn't proved."
            }
            Certainty::Perhaps => "Perhaps: another run has something else there.",
        }
    }
}

pub(crate) fn run(args: &Complete, task: Task<'_>) -> Ended {
    let Task { json, input, out, notes } = task;
    let (trace, names) = input.read(notes)?;
    let view = View::whole(&trace, &names);
    let completion = match gemshowal::complete(&trace)? {
        Answer::Whole(completion) => completion,
        Answer::Never(pid, index, never) => {
            let no = Against::by_complete(pid, index, never).no(&view);
            if json || args.form == Form::Added {
                return Err(Failure::Never(Box::new(no)));
            }
            // No other program is to take the sentence for a text.
            notes.say(no.headline);
            return Ok(Status::No);
        }
    };
    let (streams, name) = (completion.streams(), input.line_name());
    let is_too_long = streams.pids().len() > gemshowal::LIMITS.processes as usize;
    let is_standard = match args.form {
        Form::Added => {
            out.tell(json, "completed", &Lacks::of(&view, &completion).completed())?;
            true
        }
        Form::Streams | Form::Acts if is_too_long => return Err(Failure::TooLong(name.into())),
        Form::Streams => gemshowal::write_streams(out, streams)?,
        Form::Acts => {
            let written = trace.write_acts(out, &completion);
            written.map_err(|error| Failure::of_acts(error, name))?
        }
    };
    if !is_standard {
        notes.say("note: seqaudit doesn't read so much; seqtool check and gemshowal check do");
    }
    Ok(Status::Yes)
}

struct Lacks<'a> {
    completion: &'a Completion,
    shown: Shown<'a>,
    certain: Certain,
    /// The added sends of messages whose receives weren't reported, by sender and count.
    invented: HashSet<(Pid, u64)>,
}

impl<'a> Lacks<'a> {
    fn of(view: &'a View<'a>, completion: &'a Completion) -> Lacks<'a> {
        let certain = Certain::of(view.trace.streams(), completion);
        let is_invented = |&(pid, index, event): &(Pid, u64, &Event)| {
            event.kind == Kind::Send && !certain.added.contains(&(pid, index))
        };
        let invented = gemshowal::added(completion).filter(is_invented);
        let invented = invented.map(|(pid, _, event)| (pid, event.serial.this)).collect();
        Lacks { completion, shown: Shown::completed(view, completion), certain, invented }
    }

    fn certainty(&self, place: Place) -> Certainty {
        if self.certain.added.contains(&place) {
            Certainty::Certain
        } else if self.certain.added_on_a_node.contains(&place) {
            Certainty::CertainOnANode
        } else {
            Certainty::Perhaps
        }
    }

    /// Returns whether no reported event tells of the event's message.
    fn is_invented(&self, event: &Event) -> bool {
        self.invented.contains(&(event.from, event.serial.this))
    }

    /// Says what happened: of a message that no reported event tells of its count alone, and of a
    /// certain receive that the message may have been another.
    fn sentence(&self, event: &Event, certainty: Certainty) -> String {
        let (process, count) = (|pid| self.shown.process(pid), event.serial.this);
        match (event.kind, event.to) {
            (Kind::Receive, Some(to)) if self.is_invented(event) => {
                format!("{} receives a message of count {count}, sender unknown", process(to))
            }
            (Kind::Send, Some(to)) if self.is_invented(event) => {
                let (from, to) = (process(event.from), process(to));
                format!("{from} sends a message of count {count} to {to}")
            }
            (Kind::Receive, Some(to)) if certainty != Certainty::Perhaps => {
                let message = self.shown.view.names.brief(event.value);
                let (to, message, from) = (process(to), short(&message), process(event.from));
                format!("{to} receives a message of count {count}, perhaps {message} from {from}")
            }
            _ => self.shown.sentence(event),
        }
    }

    fn added(&self) -> impl Iterator<Item = Added> + '_ {
        gemshowal::added(self.completion).map(|(pid, index, event)| {
            let grade = self.certainty((pid, index));
            Added {
                place: PlaceObject::shown(&self.shown, (pid, index)),
                fields: Fields::new(self.shown.view.names, event),
                grade,
                sender_known: !self.is_invented(event),
                what: self.sentence(event, grade),
            }
        })
    }

    fn lost_on_a_node(&self) -> impl Iterator<Item = Lost> + '_ {
        self.certain.lost_on_a_node.iter().filter_map(|&place| {
            let event = self.completion.streams().event(place.0, place.1)?;
            Some(Lost {
                place: PlaceObject::shown(&self.shown, place),
                count: Number(event.serial.prev),
                what: self.sentence(&event, Certainty::Perhaps),
            })
        })
    }

    fn completed(&self) -> Completed<'_> {
        let unlisted = self.completion.unlisted().iter();
        Completed {
            added: Number(self.completion.added()),
            unlisted: unlisted.map(|&pid| gemshowal::Text(pid).to_string()).collect(),
            events: Sequence::of(|| self.added()),
            lost_on_a_node: Sequence::of(|| self.lost_on_a_node()),
        }
    }
}

#[derive(Serialize)]
struct Completed<'a> {
    added: Number,
    unlisted: Vec<String>,
    events: Sequence<'a, Added>,
    lost_on_a_node: Sequence<'a, Lost>,
}

impl Display for Completed<'_> {
    fn fmt(&self, f: &mut Formatter<'_>) -> fmt::Result {
        let mut grades = BTreeSet::new();
        match (self.added.0, self.unlisted.len() as u64) {
            (0, _) => writeln!(f, "{NOTHING}")?,
            (added, 0) => writeln!(f, "adds {}:", count(added, "event"))?,
            (added, unlisted) => {
                let (added, of) = (count(added, "event"), count(unlisted, "process"));
                writeln!(f, "adds {added}, with {of} that the trace doesn't list:")?;
            }
        }
        for Added { place, grade, what, .. } in self.events.iter() {
            grades.insert(grade);
            writeln!(f, "  {}: {} {what}", place.event, grade.words())?;
        }
        let mut lost = self.lost_on_a_node.iter().peekable();
        if lost.peek().is_some() {
            grades.insert(Certainty::CertainOnANode);
            writeln!(f, "{LOST_ON_A_NODE}")?;
        }
        for Lost { place, count, what } in lost {
            writeln!(f, "  {}: count {}, before {what}", place.event, count.0)?;
        }
        grades.into_iter().try_for_each(|grade| writeln!(f, "{}", grade.meaning()))
    }
}

#[derive(Serialize)]
struct Added {
    #[serde(flatten)]
    place: PlaceObject,
    #[serde(flatten)]
    fields: Fields,
    grade: Certainty,
    sender_known: bool,
    what: String,
}

/// A send or print before which a receive was lost, though none is added.
#[derive(Serialize)]
struct Lost {
    #[serde(flatten)]
    place: PlaceObject,
    count: Number,
    what: String,
}
