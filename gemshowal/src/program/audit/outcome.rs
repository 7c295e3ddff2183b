//! The outcome of an audit, as the proved libraries find it.

use super::judged::{Judge, Judged, Verdict};
use super::missing::Missing;
use crate::reason::Against;
use crate::view::{Kept, Shown, View};
use crate::Failure;
use gemshowal::{
    Answer, AuditError, CompleteError, Completion, Event, Fits, Kind, OutOfMemory, Paired, Trace,
};

pub(super) struct Outcome {
    pub(super) said: Said,
    /// The trace with the ranks of its counts, if acts were found for these alone.
    pub(super) ranked: Option<Trace>,
    /// The judgement by the rules of a standard node, if no run of the manual's machine was found,
    /// or one with receives that weren't reported in place of tokens that were put back.
    pub(super) judged: Option<Judged>,
}

/// The verdict of the manual's machine.
pub(super) enum Said {
    Fits(Fits),
    /// A run has the trace with events that nobody reported.
    Completed(Completion),
    Never(Against),
    /// It isn't asked, as counters have wrapped.
    Nothing,
}

/// Returns whether a completion adds receives to a trace in which others were reported.
fn adds_receives(trace: &Trace, completion: &Completion) -> bool {
    let is_receive = |event: &Event| event.kind == Kind::Receive;
    trace.events().any(|(_, event)| is_receive(event))
        && gemshowal::added(completion).any(|(.., event)| is_receive(event))
}

impl Outcome {
    /// Looks for a run, and if the manual's machine has none, or none without receives that weren't
    /// reported, asks for the judgement by the rules of a standard node.
    pub(super) fn of(
        trace: &Trace,
        judge: &Judge<'_>,
        kept: Option<&Kept>,
    ) -> Result<Outcome, Failure> {
        let (said, ranked) =
            if judge.is_wrapped() { (Said::Nothing, None) } else { Outcome::by_machine(trace)? };
        let judged = match &said {
            Said::Fits(_) => None,
            Said::Never(_) | Said::Nothing => Some(judge.judged(kept)?),
            Said::Completed(completion) if adds_receives(trace, completion) => {
                judge.with_put_backs(kept)?
            }
            Said::Completed(_) => None,
        };
        Ok(Outcome { said, ranked, judged })
    }

    /// Replaces counts that begin high by their ranks, and completes what needs unreported events.
    fn by_machine(trace: &Trace) -> Result<(Said, Option<Trace>), CompleteError> {
        match gemshowal::audit(trace) {
            Ok(fits) => return Ok((Said::Fits(fits), None)),
            Err(AuditError::Memory(error)) => return Err(error.into()),
            Err(AuditError::Unfit(unfit)) => {
                if let Some(never) = unfit.never() {
                    let against = Against::by_complete(unfit.pid, unfit.index, never);
                    return Ok((Said::Never(against), None));
                }
            }
        }
        let (ranked, is_other) = trace.renumbered()?;
        if is_other {
            match gemshowal::audit(&ranked) {
                Ok(fits) => return Ok((Said::Fits(fits), Some(ranked))),
                Err(AuditError::Memory(error)) => return Err(error.into()),
                Err(AuditError::Unfit(_)) => {}
            }
        }
        let said = match gemshowal::complete(trace)? {
            Answer::Whole(completion) => Said::Completed(completion),
            Answer::Never(pid, index, never) => {
                Said::Never(Against::by_complete(pid, index, never))
            }
        };
        Ok((said, None))
    }

    pub(super) fn verdict(&self) -> Verdict {
        self.judged.as_ref().map_or(Verdict::Fits, Judged::verdict)
    }

    pub(super) fn is_fit(&self) -> bool {
        self.verdict() == Verdict::Fits
    }

    pub(super) fn is_never(&self) -> bool {
        self.verdict() == Verdict::Never
    }

    /// Returns the reason of the manual's machine, if it tells what is wrong: a standard node may
    /// explain the event that it names.
    pub(super) fn against(&self) -> Option<&Against> {
        match (&self.said, &self.judged) {
            (Said::Never(against), Some(judged))
                if self.is_never() || judged.is_unexplained(against.place) =>
            {
                Some(against)
            }
            _ => None,
        }
    }

    pub(super) fn word(&self) -> &'static str {
        match (&self.said, &self.judged) {
            (Said::Completed(_), None) => "completed",
            _ => match self.verdict() {
                Verdict::Fits => "fits",
                Verdict::Unexplained => "unexplained",
                Verdict::Never => "never",
            },
        }
    }

    pub(super) fn shown<'a>(&'a self, view: &'a View<'a>) -> Shown<'a> {
        match &self.said {
            Said::Completed(completion) => Shown::completed(view, completion),
            Said::Fits(_) | Said::Never(_) | Said::Nothing => Shown::reported(view),
        }
    }

    /// Finds what the trace leaves out of a run of the manual's machine, if that has one.
    pub(super) fn missing(&self, shown: &Shown<'_>) -> Result<Missing, OutOfMemory> {
        if let Said::Never(_) | Said::Nothing = self.said {
            return Ok(Missing::default());
        }
        if matches!(&self.said, Said::Fits(fits) if fits.has_all_ends(shown.view.trace)) {
            return Missing::find(shown, None);
        }
        let paired = Paired::if_possible(shown.streams)?;
        paired.map_or(Ok(Missing::default()), |paired| Missing::find(shown, Some(&paired)))
    }
}
