//! `NAME.terms`: the names of processes, labels and messages. A line is an entry, with tabs between
//! its parts: `process PID NAME ABOUT`, `label NUMBER TERM`, `value NUMBER TERM`, or `node NUMBER
//! NAME` for a further number of a node that has more than one.

use super::elixir;
use super::files::{escaped, number, take};
use crate::Failure;
use gemshowal::{Label, Pid};
use std::collections::{HashMap, HashSet};
use std::path::Path;

#[derive(Debug)]
pub(super) struct Process {
    pub(super) name: Box<str>,
    pub(super) about: Box<str>,
}

#[derive(Debug, Default)]
pub(super) struct Terms {
    pub(super) processes: HashMap<Pid, Process>,
    labels: HashMap<u32, Box<str>>,
    values: HashMap<u64, Box<str>>,
    /// The further numbers of nodes: two numbers may then mean one node.
    pub(super) further_nodes: HashSet<u64>,
    /// Tells whether they name modules of Elixir, so that messages are shown as Elixir writes them.
    pub(super) are_elixir: bool,
}

const HEADER: &str = "seqaudit terms 1";
const WANTED: &str = "an entry of NAME.terms that no line before it has";

impl Terms {
    /// Reads a file, if it is there: twice, since the last line may be the first one of Elixir.
    pub(super) fn read(file: &Path) -> Result<Option<Terms>, Failure> {
        let mut terms = Terms::default();
        take(file, HEADER, WANTED, |line| {
            terms.are_elixir |= elixir::is_elixir(line);
            Some(())
        })?;
        let is_there = take(file, HEADER, WANTED, |line| terms.add(line))?;
        Ok(is_there.then_some(terms))
    }

    /// Adds the entry of a line; returns `None` if it isn't one, or its subject isn't new.
    fn add(&mut self, line: &str) -> Option<()> {
        let mut parts = line.split('\t');
        let (kind, of) = (parts.next()?, parts.next()?);
        let text: Box<str> = escaped(parts.next()?).into();
        let is_new = match kind {
            "process" => {
                let (mut name, mut about): (_, Box<str>) = (text, escaped(parts.next()?).into());
                if self.are_elixir {
                    (name, about) = (elixir::name(&name).into(), elixir::name(&about).into());
                }
                self.processes.insert(gemshowal::read_pid(of)?, Process { name, about }).is_none()
            }
            "label" => {
                let term = if self.are_elixir { elixir::text(&text).into() } else { text };
                self.labels.insert(number(of)?.try_into().ok()?, term).is_none()
            }
            "value" => self.values.insert(number(of)?, text).is_none(),
            "node" => self.further_nodes.insert(number(of)?),
            _ => false,
        };
        (is_new && parts.next().is_none()).then_some(())
    }

    /// Takes the names that another part has, and returns a label that is another one there.
    pub(super) fn join(&mut self, other: Terms) -> Option<u32> {
        self.are_elixir |= other.are_elixir;
        for (pid, process) in other.processes {
            self.processes.entry(pid).or_insert(process);
        }
        other.labels.into_iter().find_map(|(label, term)| {
            let known = self.labels.entry(label).or_insert_with(|| term.clone());
            (*known != term).then_some(label)
        })
    }

    pub(super) fn is_empty(&self) -> bool {
        self.processes.is_empty() && self.labels.is_empty() && self.values.is_empty()
    }

    pub(super) fn label(&self, label: Label) -> Option<&str> {
        self.labels.get(&label.0).map(|term| &**term)
    }

    pub(super) fn value(&self, value: u64) -> Option<&str> {
        self.values.get(&value).map(|term| &**term)
    }
}
