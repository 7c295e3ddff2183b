//! The report on a trace as a whole: its parts, its copies, and the object for programs.

use super::handed_over::HandedOver;
use super::judged::{Found, Judged, PutBack};
use super::missing::{Known, Lack};
use super::others::{Asked, Comparison};
use super::sentences::{not_proved, of_processes, write_losses, Sentences};
use super::unexplained::{serial_text, Explainer};
use super::{Audited, Auditor};
use crate::object::{Number, Place as PlaceObject};
use crate::output::Output;
use crate::reason::Refused;
use crate::view::{count, grouped, short, Kept, Place, Shown, View};
use crate::{Ended, Failure, Status};
use gemshowal::{Label, Pid};
use serde::Serialize;
use std::collections::BTreeMap;
use std::io::Write;

/// Returns where the resets between these parts are.
pub(super) fn resets(view: &View<'_>, parts: &[Kept]) -> Vec<String> {
    (1..parts.len()).map(|at| reset_at(view, &parts[..at], &parts[at..])).collect()
}

/// Says where a reset is, by the last event of each process before it and the first one after it.
/// If no process has events on both sides, it names the processes of each side.
fn reset_at(view: &View<'_>, before: &[Kept], behind: &[Kept]) -> String {
    let pids = view.trace.streams().pids();
    let last = |pid: &Pid| before.iter().rev().find_map(|kept| kept.get(pid)?.last().copied());
    let first = |pid: &Pid| behind.iter().find_map(|kept| kept.get(pid)?.first().copied());
    let shown = Shown::reported(view);
    let between: Vec<String> = pids
        .iter()
        .filter_map(|pid| Some((*pid, last(pid)?, first(pid)?)))
        .map(|(pid, last, first)| {
            format!("between {} and {}", shown.event((pid, last)), shown.event((pid, first)))
        })
        .collect();
    if !between.is_empty() {
        return of_processes(&between, String::clone);
    }
    let named = |is_in: &dyn Fn(&Pid) -> bool| {
        let names =
            pids.iter().filter(|pid| is_in(pid)).map(|pid| shown.process(*pid).into_owned());
        of_processes(&names.collect::<Vec<_>>(), String::clone)
    };
    format!(
        "behind all events of {}, and before all of {}",
        named(&|pid| last(pid).is_some()),
        named(&|pid| first(pid).is_some())
    )
}

#[derive(Serialize)]
pub(super) struct Part {
    pub(super) fits: bool,
    said: &'static str,
    pub(super) headline: String,
    events: Number,
    processes: usize,
    renumbered: bool,
    #[serde(flatten)]
    missing: Option<MissingObject>,
    #[serde(flatten)]
    refused: Option<Refused>,
    #[serde(flatten)]
    node: Option<NodeObject>,
}

/// The judgement by the rules of a standard node.
#[derive(Serialize)]
struct NodeObject {
    law: &'static str,
    put_backs: Vec<PutBackObject>,
    handed_over: Vec<HandedOverObject>,
    unexplained: Vec<UnexplainedObject>,
    earlier: Vec<PlaceObject>,
    sent_before: Vec<PlaceObject>,
    unsent: Vec<PlaceObject>,
    copies: Vec<PlaceObject>,
    cycle: Vec<PlaceObject>,
    waiting: Vec<PlaceObject>,
    #[serde(skip_serializing_if = "Option::is_none")]
    found: Option<Found>,
}

#[derive(Serialize)]
struct PutBackObject {
    #[serde(flatten)]
    place: PlaceObject,
    serial: String,
    before: PlaceObject,
    #[serde(skip_serializing_if = "Option::is_none")]
    of: Option<PlaceObject>,
}

#[derive(Serialize)]
struct HandedOverObject {
    #[serde(flatten)]
    place: PlaceObject,
    serial: String,
    of: PlaceObject,
}

#[derive(Serialize)]
struct UnexplainedObject {
    #[serde(flatten)]
    place: PlaceObject,
    why: String,
}

#[derive(Serialize)]
struct MissingObject {
    unreported: Vec<Unreported>,
    waiting: Vec<PlaceObject>,
    cause_unknown: Vec<PlaceObject>,
    silent_counts: BTreeMap<String, Number>,
    jumps: BTreeMap<String, Number>,
    counter_before: BTreeMap<String, Number>,
    spawns: BTreeMap<String, Number>,
}

#[derive(Serialize)]
struct Unreported {
    what: String,
    /// Tells whether its message was reported as received.
    certain: bool,
    #[serde(skip_serializing_if = "Option::is_none")]
    received_as: Option<PlaceObject>,
    #[serde(skip_serializing_if = "Option::is_none")]
    sent_as: Option<PlaceObject>,
    #[serde(skip_serializing_if = "Option::is_none")]
    before: Option<String>,
}

impl Part {
    pub(super) fn new(sentences: &Sentences<'_>) -> Part {
        let (outcome, shown) = (sentences.outcome, sentences.shown);
        let streams = shown.view.trace.streams();
        let refused = outcome.against().map(|against| against.refused(shown.view, true));
        let missing = outcome.judged.is_none().then(|| MissingObject::new(sentences));
        Part {
            fits: outcome.is_fit() && streams.total() > 0,
            said: if streams.total() == 0 { "empty" } else { outcome.word() },
            headline: sentences.headline(),
            events: Number(streams.total()),
            processes: streams.pids().len(),
            renumbered: outcome.ranked.is_some(),
            missing,
            refused,
            node: outcome.judged.as_ref().map(|judged| NodeObject::new(sentences, judged)),
        }
    }
}

impl NodeObject {
    fn new(sentences: &Sentences<'_>, judged: &Judged) -> NodeObject {
        let names = sentences.shown.view.names;
        let place = |&place: &Place| PlaceObject::new(names, place);
        let places = |places: &[Place]| places.iter().map(place).collect();
        let explainer = Explainer::new(sentences.node, names, &judged.waiting);
        let put_back = |it: &PutBack| PutBackObject {
            place: place(&it.place),
            serial: serial_text(it.token),
            before: place(&it.before),
            of: it.of.as_ref().map(place),
        };
        let handed_over = |it: &HandedOver| HandedOverObject {
            place: place(&it.place),
            serial: serial_text(it.token),
            of: place(&it.of),
        };
        let unexplained = |it: &Place| UnexplainedObject {
            place: place(it),
            why: explainer.explanation(*it, judged),
        };
        NodeObject {
            law: "node",
            put_backs: judged.put_backs.iter().map(put_back).collect(),
            handed_over: judged.handed_over.iter().map(handed_over).collect(),
            unexplained: judged.ungiven.iter().map(unexplained).collect(),
            earlier: places(&judged.earlier),
            sent_before: places(&judged.sent_before),
            unsent: places(&judged.unsent),
            copies: places(&judged.copies),
            cycle: places(&judged.cycle),
            waiting: places(&judged.waiting),
            found: judged.found,
        }
    }
}

impl MissingObject {
    fn new(sentences: &Sentences<'_>) -> MissingObject {
        let (shown, missing) = (sentences.shown, sentences.missing);
        let places =
            |places: &[Place]| places.iter().map(|&it| PlaceObject::shown(shown, it)).collect();
        let counts = |counts: Vec<(Pid, u64)>| {
            let named = |(pid, number)| (shown.process(pid).into_owned(), Number(number));
            counts.into_iter().map(named).collect()
        };
        MissingObject {
            unreported: missing.lacks.iter().map(|it| Unreported::new(sentences, it)).collect(),
            waiting: places(&missing.waiting),
            cause_unknown: places(&missing.open),
            silent_counts: counts(sentences.counted(|it| it.silent)),
            jumps: counts(sentences.counted(|it| it.jumps)),
            counter_before: counts(sentences.counted(|it| it.before)),
            spawns: counts(sentences.counted(|it| it.spawns)),
        }
    }
}

impl Unreported {
    fn new(sentences: &Sentences<'_>, lack: &Lack) -> Unreported {
        let shown = sentences.shown;
        let what = sentences.lack(lack);
        let (certain, received_as, sent_as, before) = match *lack {
            Lack::Added(_, known) => (known == Known::Certain, None, None, None),
            Lack::Hidden(receive) => (true, Some(PlaceObject::shown(shown, receive)), None, None),
            Lack::Unreceived(send, before) => {
                (false, None, Some(PlaceObject::shown(shown, send)), Some(sentences.before(before)))
            }
        };
        Unreported { what, certain, received_as, sent_as, before }
    }
}

#[derive(Serialize)]
struct Whole<'a> {
    #[serde(flatten)]
    whole: Part,
    #[serde(skip_serializing_if = "Option::is_none")]
    cut: Option<&'a str>,
    #[serde(skip_serializing_if = "Vec::is_empty")]
    resets: Vec<String>,
    losses: &'a [String],
    /// The answer of the proved programs: `not asked`, `confirmed` or `differs`.
    proved: &'static str,
    #[serde(skip_serializing_if = "Option::is_none")]
    second: Option<&'static str>,
}

pub(super) fn write(
    auditor: &Auditor<'_>,
    audited: Audited<'_>,
    others: &[Comparison],
    out: &mut Output,
) -> Result<(), Failure> {
    let shown = audited.outcome.shown(auditor.view);
    let mut whole = Part::new(&auditor.sentences(audited.outcome, &shown, &audited.missing));
    whole.headline += audited.resets.instead();
    let result = whole.said;
    let word = |asked| others.iter().find(|other| other.asked == asked).map(Comparison::word);
    let object = Whole {
        whole,
        cut: auditor.cut.as_deref(),
        resets: audited.resets.places,
        losses: auditor.view.names.losses(),
        proved: word(Asked::Proved).unwrap_or("not asked"),
        second: word(Asked::Second),
    };
    out.report(result, &object)
}

#[derive(Serialize)]
struct Each<'a> {
    labels: Vec<OfLabel>,
    losses: &'a [String],
}

#[derive(Serialize)]
struct OfLabel {
    label: String,
    #[serde(flatten)]
    part: Part,
}

pub(super) fn write_each(auditor: &Auditor<'_>, out: &mut Output) -> Ended {
    let mut by_label: BTreeMap<u32, Kept> = BTreeMap::new();
    for ((pid, index), event) in auditor.view.trace.events() {
        by_label.entry(event.label.0).or_default().entry(pid).or_default().push(index);
    }
    let of_label = |(&label, kept): (&u32, &Kept)| {
        let trace = auditor.view.trace.part(kept)?;
        let label = auditor.view.names.label(Label(label)).into_owned();
        Ok(OfLabel { label, part: auditor.part(&trace, kept)? })
    };
    let labels = by_label.iter().map(of_label).collect::<Result<Vec<OfLabel>, Failure>>()?;
    let (fits, of) = (labels.iter().filter(|it| it.part.fits).count(), labels.len());
    let status = if fits == of && of > 0 { Status::Yes } else { Status::No };
    let losses = auditor.view.names.losses();
    if auditor.json {
        let result = if status == Status::Yes { "fits" } else { "never" };
        out.report(result, &Each { labels, losses })?;
        return Ok(status);
    }
    for OfLabel { label, part } in &labels {
        writeln!(out, "{}: {}", short(label), part.headline)?;
    }
    writeln!(out, "{}: {} fit", count(of as u64, "label"), grouped(fits as u64))?;
    write_losses(losses, out)?;
    writeln!(out, "{}", not_proved(auditor.node.is_wrapped(), false, false))?;
    Ok(status)
}
