//! The events that are chosen: those that meet all conditions.

use super::part::{Line, Part, Parts};
use super::survey::Survey;
use crate::args::{Conditions, Cut};
use crate::names::{no_event_on, Names, Time, TimesFile};
use crate::pieces::Reported;
use crate::view::Place;
use crate::Failure;
use gemshowal::Filter;
use std::collections::HashSet;

/// An event near which others are chosen, as the command line names it.
pub(super) enum NamedEvent<'a> {
    Line(Line),
    Name(&'a str),
}

impl<'a> NamedEvent<'a> {
    pub(super) fn read(word: &'a str, parts: &Parts) -> Result<NamedEvent<'a>, Failure> {
        match (word.parse::<u64>(), parts.iter().len()) {
            (Ok(line), 1) => return Ok(NamedEvent::Line((0, line))),
            (Ok(line), _) => {
                let words = format!("line {line} of which file? Write FILE:{line}");
                return Err(Failure::NotFound(words));
            }
            (Err(_), _) => {}
        }
        let line = word.rsplit_once(':').and_then(|(file, line)| {
            let part = parts.iter().position(|part| part.is_called(file))?;
            Some((part, line.parse().ok()?))
        });
        Ok(line.map_or(NamedEvent::Name(word), NamedEvent::Line))
    }

    fn find(&self, survey: &Survey, names: &Names) -> Result<Place, Failure> {
        match *self {
            NamedEvent::Line(line) => {
                survey.on_lines.get(&line).copied().ok_or_else(|| no_event_on(line.1))
            }
            NamedEvent::Name(word) => {
                names.find_event_among(&survey.pids(), |pid| survey.count(pid), word)
            }
        }
    }
}

pub(super) struct Selection<'a> {
    args: &'a Cut,
    filter: Filter,
    /// The events near which others are chosen, and so the other ends of their messages.
    pub(super) places: Vec<Place>,
    times: Option<Times>,
}

struct Times {
    parts: Vec<TimesFile>,
    /// When the first event of all happened.
    first: Time,
    /// The part that is read.
    part: Option<usize>,
    /// Its events that happened in the span that is asked for, and weren't met yet.
    events: HashSet<Place>,
}

impl Times {
    fn new(parts: &Parts) -> Result<Times, Failure> {
        let file = |part: &Part| TimesFile::beside(&part.path)?.ok_or(Failure::NoTimes);
        let parts = parts.iter().map(file).collect::<Result<Vec<_>, _>>()?;
        let first = parts.iter().map(|part| part.begin).min().unwrap_or(0);
        if parts.len() > 1 && first < 0 {
            return Err(Failure::NoDate);
        }
        Ok(Times { parts, first, part: None, events: HashSet::new() })
    }

    /// Returns whether an event happened in the span. The parts come in order.
    fn take(&mut self, asked: &Conditions, part: usize, place: Place) -> Result<bool, Failure> {
        if self.part != Some(part) {
            self.end()?;
            self.part = Some(part);
            let file = &self.parts[part];
            let later = file.begin - self.first;
            self.events = file.events(|time| asked.cover(time.saturating_add(later)))?;
        }
        Ok(self.events.remove(&place))
    }

    /// Refuses the times of another trace: they have events that the part lacks.
    fn end(&mut self) -> Result<(), Failure> {
        match self.part.take() {
            Some(part) if !self.events.is_empty() => {
                Err(Failure::OtherTimes(self.parts[part].file.display().to_string()))
            }
            _ => Ok(()),
        }
    }
}

impl<'a> Selection<'a> {
    pub(super) fn new(
        args: &'a Cut,
        named: &[NamedEvent<'_>],
        survey: &Survey,
        names: &Names,
        parts: &Parts,
    ) -> Result<Selection<'a>, Failure> {
        let conditions = &args.conditions;
        let times = if conditions.are_of_time() { Some(Times::new(parts)?) } else { None };
        let filter = conditions.filter_among(names, || survey.labels.clone(), &survey.pids())?;
        let places = named.iter().map(|event| event.find(survey, names));
        let places = places.collect::<Result<_, _>>()?;
        Ok(Selection { args, filter, places, times })
    }

    /// Returns whether the event on a line meets all conditions. The lines come in order.
    pub(super) fn takes(
        &mut self,
        line: Line,
        before: u64,
        reported: &Reported<'_>,
    ) -> Result<bool, Failure> {
        let &Reported { pid, index, ref event, .. } = reported;
        let is_in_time = match &mut self.times {
            None => true,
            Some(times) => times.take(&self.args.conditions, line.0, (pid, index))?,
        };
        let near = self.args.near;
        let is_near = |&(of, at): &Place| of == pid && at.abs_diff(before + index) <= near;
        Ok(self.filter.chooses(pid, line.1, event)
            && (self.places.is_empty() || self.places.iter().any(is_near))
            && is_in_time)
    }

    pub(super) fn end(&mut self) -> Result<(), Failure> {
        self.times.as_mut().map_or(Ok(()), Times::end)
    }
}
