//! The sentences that charts, pages, exports and `why` have in common: what an event is, what it
//! follows, and what that rests on. Each is in one place here.

use crate::causes::{Cause, Causes, Grade, Link};
use crate::moment::moment;
use crate::names::Names;
use crate::reason::Against;
use crate::view::count;
use gemshowal::{Item, Kind};

const UNKNOWN: &str = "an unknown message";

const RUNS: &str =
    "this holds in each run of a standard node without a reset that reports the trace";
pub(crate) const PREMISES: [&str; 9] = [
    "if in between, or before a beginning, its process took no token whose receive wasn't reported",
    "if there it put no token back, and spawned no process",
    "if there it made no token, and set no label",
    "if each send of such a message was reported",
    "if the process of the send or print reported each of its sends, prints and receives of tokens",
    "if the process of the send or print put back only tokens that it had held",
    "if each label that it gave to a token was new to it, and it sent or printed with that label \
     before it received it",
    "if it reported each of its sends and prints, and each message to it was reported when it was \
     sent",
    "if it made no token with the label of the send or print, and set that label on none",
];
/// The premise of what plain code finds by a law that is proved.
const TESTED: u8 = 8;
const PERHAPS: &str =
    "perhaps: it is so in the run that gemshowal complete finds, and another may \
     have something else there";

impl Grade {
    /// Returns the numbers of the premises: `1, 2`.
    pub(crate) fn list(self) -> String {
        self.premises().iter().map(u8::to_string).collect::<Vec<_>>().join(", ")
    }

    /// Returns the numbers of the premises, to be put after what rests on them.
    pub(crate) fn numbers(self) -> String {
        let list = Some(self.list()).filter(|list| !list.is_empty());
        list.map(|list| format!(" ({list})")).unwrap_or_default()
    }

    pub(crate) fn perhaps(self) -> &'static str {
        match self {
            Grade::Perhaps => "perhaps ",
            Grade::Certain | Grade::Under(_) => "",
        }
    }
}

/// Returns the lines that say on what these links rest.
pub(crate) fn rests_on(links: impl Iterator<Item = Link>) -> Vec<String> {
    let grades: Vec<Grade> = links.map(|link| link.grade).collect();
    let rests_on = |premise| grades.iter().any(|grade| grade.premises().contains(&premise));
    let premises = (1..).zip(PREMISES).filter(|&(premise, _)| rests_on(premise));
    let premises = premises.map(|(premise, line)| format!("({premise}) {line}"));
    let tested = rests_on(TESTED).then(|| {
        format!("the law behind ({TESTED}) is proved; the code that goes by it is only tested")
    });
    let perhaps = grades.contains(&Grade::Perhaps).then(|| PERHAPS.to_owned());
    [RUNS.to_owned()].into_iter().chain(premises).chain(tested).chain(perhaps).collect()
}

/// Returns what is said after the name of an event that wasn't reported.
pub(crate) fn unreported(causes: &Causes<'_>, item: Item) -> &'static str {
    causes.reported(item).map_or(", which wasn't reported", |_| "")
}

/// Returns what is said after the send of a message that an event follows.
pub(crate) fn unreceived(cause: Cause) -> &'static str {
    match cause {
        Cause::Message(_) => ", whose receive wasn't reported",
        _ => "",
    }
}

pub(crate) fn message(causes: &Causes<'_>, item: Item) -> String {
    match causes.message(item) {
        Some(value) => causes.names().brief(value).into_owned(),
        None => UNKNOWN.into(),
    }
}

pub(crate) fn label(causes: &Causes<'_>, item: Item) -> String {
    let event = causes.event(item);
    event.map(|event| causes.names().label(event.label).into_owned()).unwrap_or_default()
}

/// Says what an event follows, in a sentence that names it so: `shop#1 follows shop#0 (1, 2, 3)`.
pub(crate) fn follows(causes: &Causes<'_>, item: Item, name: &str, link: Link) -> String {
    let (perhaps, numbers) = (link.grade.perhaps(), link.grade.numbers());
    match link.cause {
        Cause::After(Item::Hidden(..)) => format!("nobody reported the send that {name} follows"),
        Cause::After(other) => {
            let (cause, unreported) = (causes.name(other), unreported(causes, other));
            format!("{name} {perhaps}follows {cause}{unreported}{numbers}")
        }
        Cause::Message(send) => {
            let (send, unreceived) = (causes.name(send), unreceived(link.cause));
            format!("{name} follows the message of {send}{unreceived}{numbers}")
        }
        Cause::Begins(None) => format!("{name} {perhaps}begins this chain{numbers}"),
        Cause::Begins(Some(had)) => format!(
            "{name} {perhaps}begins label {}, or its process set that on its token; it had last \
             received {} of label {}{numbers}",
            label(causes, item),
            causes.name(had),
            label(causes, had)
        ),
        Cause::Either(one, other) => {
            let origin = |origin: Option<Item>| match origin {
                Some(item) => format!("follows {}", causes.name(item)),
                None => "begins this chain".into(),
            };
            let (one, other) = (origin(one), origin(other));
            format!("{name} {one} or {other}, or another event: several tokens fit{numbers}")
        }
        Cause::Moved(since) => {
            format!("what {name} follows isn't known: {}", moved(causes, item, since))
        }
        Cause::Unknown => format!("nothing is known of what {name} follows"),
    }
}

/// Says what moved the counters of an event's process since this event, or before it.
pub(crate) fn moved(causes: &Causes<'_>, item: Item, since: Option<Item>) -> String {
    let since = since.map(|event| format!("since {}", causes.name(event)));
    format!(
        "{} {} took a token whose receive wasn't reported, put one back or spawned a process",
        since.as_deref().unwrap_or("before it"),
        causes.process(causes.actor(item))
    )
}

pub(crate) fn time(causes: &Causes<'_>, item: Item) -> Option<String> {
    let (times, place) = causes.names().times().zip(causes.place(item))?;
    Some(moment(times, times.of_event(place)?))
}

/// Says whether a run has the trace, and what is added to it, in a line.
pub(crate) fn headline(causes: &Causes<'_>) -> String {
    if let Some((pid, index, never)) = causes.never() {
        return Against::by_complete(pid, index, never).headline(causes.view());
    }
    let own = causes.trace().streams();
    let events = count(own.total(), "event");
    let processes = count(own.pids().len() as u64, "process");
    let added = causes.items().filter(|&item| causes.reported(item).is_none());
    let kind = |item| Some((causes.event(item)?.kind, causes.message(item).is_some()));
    let added: Vec<(Kind, bool)> = added.filter_map(kind).collect();
    let counted = |is_counted: fn(&(Kind, bool)) -> bool, thing| {
        let number = added.iter().filter(|it| is_counted(it)).count() as u64;
        (number > 0).then(|| count(number, thing))
    };
    // A send whose receive was reported happened.
    let certain = counted(|&(kind, is_known)| kind != Kind::Receive && is_known, "send");
    let sends = counted(|&(kind, is_known)| kind != Kind::Receive && !is_known, "send");
    let receives = counted(|&(kind, _)| kind == Kind::Receive, "receive");
    let probable: Vec<String> = sends.into_iter().chain(receives).collect();
    let how = if causes.may_have_put_back() { "perhaps" } else { "probably" };
    let probable = (!probable.is_empty()).then(|| format!("{how} {}", probable.join(" and ")));
    let added: Vec<String> = certain.into_iter().chain(probable).collect();
    let (with, behind) =
        if added.is_empty() { ("", "") } else { (", with ", " that nobody reported") };
    format!("fits: {events} of {processes}{with}{}{behind}", added.join(" and "))
}

/// Says what the trace lacks by its facts, a line each.
pub(crate) fn losses(names: &Names) -> impl Iterator<Item = String> + '_ {
    names.losses().iter().map(|loss| format!("this trace isn't whole: {loss}"))
}

/// Says which part between supposed resets is looked at.
pub(crate) fn part((which, of): (usize, usize)) -> String {
    format!("part {which} of {of} between supposed resets; gemshowal audit says where they are")
}
