//! The command `audit`: whether the events of a trace fit together, and what is missing.

mod acts;
mod handed_over;
mod judged;
mod lives;
mod missing;
mod others;
mod outcome;
mod region;
mod report;
mod resets;
mod sentences;
mod unexplained;
mod unreceived;
mod walk;

use crate::args::Audit;
use crate::input::Input;
use crate::messages::Strays;
use crate::names::Names;
use crate::output::Output;
use crate::times::summary;
use crate::view::{Kept, Shown, View};
use crate::{causes, Ended, Failure, Status, Task};
use gemshowal::{
    in_common, CertificateError, MessageContent, NodeAct, NodeTrace, OutOfMemory, Trace,
};
use judged::{Judge, Judged, Verdict};
use missing::Missing;
use others::Comparison;
use outcome::{Outcome, Said};
use report::Part;
use sentences::{write_losses, NodeSentences, Sentences};
use std::collections::HashSet;
use std::fs::File;
use std::io::{BufWriter, Write};
use std::path::Path;

/// The most parts that are told: a counter that goes back more often was hardly reset each time.
const PARTS: usize = 100;

pub(crate) fn run(args: &Audit, task: Task<'_>) -> Ended {
    let Task { json, input, out, notes } = task;
    let (node, names) = input.read_node(notes)?;
    let whole = View::whole(node.trace(), &names);
    let kept = region::kept(&args.conditions, &whole)?;
    let kept = kept.as_ref();
    let part = kept.map(|kept| node.trace().part(kept)).transpose()?;
    let cut = kept.map(|kept| region::note(&whole, kept)).transpose()?;
    let view = match part.as_ref().zip(kept) {
        Some((part, kept)) => whole.part(part, kept, true),
        None => whole,
    };
    let (judge, word) = (Judge::new(&node, &names), input.word());
    Auditor { args, json, cut, view: &view, node: &node, kept, judge, input, word }.run(out)
}

/// Returns the first line of the judgement by the rules of a standard node, and whether it says
/// that no run of the node has the trace.
pub(crate) fn headline_of_node(node: &NodeTrace, names: &Names) -> Result<(String, bool), Failure> {
    let (judged, view) = (&Judged::of(node, names)?, &View::whole(node.trace(), names));
    let headline = NodeSentences { node, view, judged }.headline();
    Ok((headline, judged.verdict() == Verdict::Never))
}

struct Auditor<'a> {
    args: &'a Audit,
    json: bool,
    /// The sentence about a cut, if a part of the trace was cut out.
    cut: Option<String>,
    view: &'a View<'a>,
    /// The whole trace, and the events of it that are looked at, unless all are.
    node: &'a NodeTrace,
    kept: Option<&'a Kept>,
    /// The judge of the whole trace.
    judge: Judge<'a>,
    input: &'a Input,
    /// The trace's name on a command line.
    word: String,
}

struct Audited<'a> {
    outcome: &'a Outcome,
    missing: Missing,
    resets: Resets,
}

/// Resets that would explain the trace, or tokens that were put back.
#[derive(Default)]
struct Resets {
    places: Vec<String>,
    /// The number of tokens that wouldn't have been put back then, if the trace fits.
    put_backs: Option<u64>,
}

impl Resets {
    /// Returns what the first line of a trace that fits adds to the tokens that were put back.
    fn instead(&self) -> &'static str {
        match (self.places.len(), self.put_backs) {
            (0, _) | (_, None) => "",
            (1, Some(_)) => ", or there was a reset",
            (_, Some(_)) => ", or there were resets",
        }
    }
}

/// Returns whether an event is twice in the trace, and its node gave the two no different times.
fn has_copies(view: &View<'_>) -> bool {
    let time = |pid, index| view.names.times()?.of_event((pid, view.number(pid, index)));
    view.trace.processes().any(|(pid, events)| {
        let mut seen = HashSet::new();
        !events.iter().zip(0..).all(|(event, index)| {
            seen.insert((event.kind as u8, MessageContent::of(event), time(pid, index)))
        })
    })
}

/// Splits the trace at possible resets; returns no parts if there is one alone, or too many, or if
/// events are twice in it: then nothing says that there was a reset.
pub(crate) fn parts(view: &View<'_>) -> Result<Vec<(Kept, Trace)>, OutOfMemory> {
    let strays = Strays::of(view.trace, view.names);
    let split = resets::split(view.trace, &strays, PARTS).unwrap_or_default();
    if split.len() < 2 || has_copies(view) {
        return Ok(Vec::new());
    }
    let part = |part: resets::Part| {
        let own = |(pid, (first, end))| (pid, (first as u64..end as u64).collect());
        let kept: Kept = part.into_iter().map(own).collect();
        let trace = view.trace.part(&kept)?;
        Ok((kept, trace))
    };
    split.into_iter().map(part).collect()
}

impl Auditor<'_> {
    fn run(&self, out: &mut Output) -> Ended {
        if self.args.each_label {
            return report::write_each(self, out);
        }
        let outcome = Outcome::of(self.view.trace, &self.judge, self.kept)?;
        let acts = self.node_acts(&outcome);
        if let Some(path) = &self.args.acts {
            self.write_acts(&outcome, acts.as_deref(), path)?;
        }
        let acts = acts.as_deref().and_then(in_common);
        let name = self.input.line_name();
        let others = others::ask(self.args, self.view.trace, &outcome, acts.as_deref(), name)?;
        let audited = self.audited(&outcome)?;
        if self.json {
            report::write(self, audited, &others, out)?;
        } else {
            self.write(&audited, &others, out)?;
        }
        Ok(match outcome.is_fit() && self.view.trace.streams().total() > 0 {
            _ if !others.iter().all(Comparison::agrees) => Status::Differs,
            true => Status::Yes,
            false => Status::No,
        })
    }

    fn audited<'a>(&self, outcome: &'a Outcome) -> Result<Audited<'a>, Failure> {
        let missing = outcome.missing(&outcome.shown(self.view))?;
        let resets = match (&outcome.said, &outcome.judged, &self.cut) {
            (Said::Never(against), Some(judged), None)
                if against.allows_reset() || judged.verdict() == Verdict::Fits =>
            {
                self.resets(judged)?
            }
            _ => Resets::default(),
        };
        Ok(Audited { outcome, missing, resets })
    }

    /// Finds resets between which each part fits, with fewer tokens put back than in the whole.
    fn resets(&self, judged: &Judged) -> Result<Resets, Failure> {
        let whole = match judged.verdict() {
            Verdict::Fits => Some(judged.put_backs.len()),
            Verdict::Unexplained | Verdict::Never => None,
        };
        let (mut kept, mut needed) = (Vec::new(), 0);
        for (own, part) in parts(self.view)? {
            let answers = causes::answers(&part, self.view.names);
            let node = NodeTrace::new(part, answers);
            let judge = Judge::new(&node, self.view.names);
            let outcome = Outcome::of(node.trace(), &judge, None)?;
            needed += outcome.judged.as_ref().map_or(0, |judged| judged.put_backs.len());
            if !outcome.is_fit() || whole.is_some_and(|whole| needed >= whole) {
                return Ok(Resets::default());
            }
            kept.push(own);
        }
        let put_backs = whole.map(|whole| (whole - needed) as u64);
        Ok(Resets { places: report::resets(self.view, &kept), put_backs })
    }

    fn part(&self, trace: &Trace, kept: &Kept) -> Result<Part, Failure> {
        let view = self.view.part(trace, kept, true);
        let outcome = Outcome::of(trace, &self.judge, Some(kept))?;
        let shown = outcome.shown(&view);
        let missing = outcome.missing(&shown)?;
        Ok(Part::new(&self.sentences(&outcome, &shown, &missing)))
    }

    /// Returns why no acts can be written, if the rules of a standard node gave the judgement.
    fn no_acts(&self, outcome: &Outcome) -> Option<&'static str> {
        let judged = outcome.judged.as_ref()?;
        acts::missing(self.node, judged, self.kept.is_some())
    }

    /// Builds acts of a standard node, if some are asked for and there is no reason against them.
    fn node_acts(&self, outcome: &Outcome) -> Option<Vec<NodeAct>> {
        let judged = outcome.judged.as_ref()?;
        let is_asked = self.args.acts.is_some() || self.args.proved;
        (is_asked && self.no_acts(outcome).is_none()).then(|| acts::of(self.node, judged))
    }

    fn write_acts(
        &self,
        outcome: &Outcome,
        acts: Option<&[NodeAct]>,
        path: &Path,
    ) -> Result<(), Failure> {
        if acts.is_none() && matches!(outcome.said, Said::Never(_) | Said::Nothing) {
            return Ok(());
        }
        let unkept = |reason| Failure::Unkept(path.display().to_string(), reason);
        let mut file = File::create(path).map(BufWriter::new).map_err(unkept)?;
        let trace = outcome.ranked.as_ref().unwrap_or(self.view.trace);
        let written = match (&outcome.said, acts) {
            (_, Some(acts)) => self.node.write_acts(&mut file, acts),
            (Said::Fits(fits), None) => Ok(trace.write_fits(&mut file, fits).map_err(unkept)?),
            (Said::Completed(completion), None) => {
                self.view.trace.write_acts(&mut file, completion).map(drop)
            }
            (Said::Never(_) | Said::Nothing, None) => Ok(()),
        };
        written.map_err(|error| match error {
            CertificateError::Io(reason) => unkept(reason),
            error => Failure::of_acts(error, self.input.line_name()),
        })?;
        file.flush().map_err(unkept)
    }

    fn write(
        &self,
        audited: &Audited<'_>,
        others: &[Comparison],
        out: &mut Output,
    ) -> Result<(), Failure> {
        let shown = audited.outcome.shown(self.view);
        let sentences = self.sentences(audited.outcome, &shown, &audited.missing);
        if let Some(cut) = &self.cut {
            writeln!(out, "cut: {cut}")?;
        }
        writeln!(out, "{}{}", sentences.headline(), audited.resets.instead())?;
        sentences.write_details(out)?;
        sentences.write_resets(&audited.resets, out)?;
        let no_acts = self.no_acts(audited.outcome);
        if let Some(reason) = no_acts.filter(|_| self.args.acts.is_some()) {
            let acts = match audited.outcome.said {
                Said::Completed(_) => "The acts are of the run that lacks receives",
                _ => "No acts are written",
            };
            writeln!(out, "{acts}: {reason}.")?;
        }
        write_losses(self.view.names.losses(), out)?;
        if let (Some(times), None) = (self.view.names.times(), &self.cut) {
            writeln!(out, "{}", summary(self.view.trace, times))?;
        }
        if others.is_empty() {
            let is_of_node = audited.outcome.judged.is_some() && !audited.outcome.is_never();
            let is_wrapped = self.node.is_wrapped();
            let are_common = no_acts.is_none() && !self.node.has_answers();
            writeln!(out, "{}", sentences::not_proved(is_wrapped, is_of_node, are_common))?;
        }
        others.iter().try_for_each(|other| writeln!(out, "{other}"))?;
        Ok(())
    }

    fn sentences<'a>(
        &'a self,
        outcome: &'a Outcome,
        shown: &'a Shown<'a>,
        missing: &'a Missing,
    ) -> Sentences<'a> {
        let is_lossy = !self.view.names.losses().is_empty();
        let node = self.node;
        Sentences { outcome, node, shown, missing, is_lossy, name: &self.word }
    }
}
