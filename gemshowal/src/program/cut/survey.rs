//! The survey of a trace: its processes, its labels, and the events on lines that are named.

use super::part::{Line, Parts};
use super::selection::NamedEvent;
use crate::pieces::{Entry, Reported};
use crate::view::Place;
use crate::Failure;
use gemshowal::{Pid, ReadFault};
use std::collections::{BTreeMap, BTreeSet, HashMap};

#[derive(Default)]
pub(super) struct Survey {
    /// The processes that are listed, each with the number of its events.
    processes: BTreeMap<Pid, u64>,
    pub(super) labels: BTreeSet<u32>,
    /// The events on the lines that places name.
    pub(super) on_lines: HashMap<Line, Place>,
    pub(super) events: u64,
}

impl Survey {
    /// Reads the parts, and refuses one that names a process which none lists.
    pub(super) fn new(parts: &mut Parts, named: &[NamedEvent<'_>]) -> Result<Survey, Failure> {
        let mut survey = Survey::default();
        let is_asked = |line| {
            named.iter().any(|event| matches!(event, &NamedEvent::Line(other) if other == line))
        };
        let mut lines = HashMap::new();
        let mut label = None;
        let processes = parts.walk(|line, before, entry| {
            let mut name = |pid: Pid| {
                lines.entry(pid).or_insert(line);
            };
            match entry {
                Entry::Process(_) => {}
                Entry::Act(pids) => pids.iter().copied().for_each(name),
                Entry::Event(Reported { pid, index, event, .. }) => {
                    let others = [Some(event.from), event.to].into_iter().flatten();
                    others.filter(|&other| other != pid).for_each(&mut name);
                    if label.replace(event.label.0) != Some(event.label.0) {
                        survey.labels.insert(event.label.0);
                    }
                    if is_asked(line) {
                        survey.on_lines.insert(line, (pid, before + index));
                    }
                    survey.events += 1;
                }
            }
            Ok(())
        })?;
        survey.processes = processes;
        let unlisted = lines.into_iter().filter(|(pid, _)| !survey.processes.contains_key(pid));
        let first = unlisted.map(|(_, line)| line).min();
        first.map_or(Ok(survey), |(part, line)| {
            Err(parts.describe(part, format!(": {}", ReadFault::Unknown(line))))
        })
    }

    pub(super) fn pids(&self) -> Vec<Pid> {
        self.processes.keys().copied().collect()
    }

    pub(super) fn count(&self, pid: Pid) -> u64 {
        self.processes.get(&pid).copied().unwrap_or(0)
    }
}
