//! The event or label that a word of the command line names.

use super::files::number;
use super::Names;
use crate::view::Place;
use crate::Failure;
use gemshowal::{Label, Pid, Trace};
use std::collections::BTreeSet;

/// The greatest number of names that are listed if none is the one that was meant.
const LISTED: usize = 20;

fn not_found<T>(words: String) -> Result<T, Failure> {
    Err(Failure::NotFound(words))
}

impl Names {
    /// Finds the place of the event that these words name: `shop#2`, `<0.81.0>#2`, `shop 2`,
    /// `<0.81.0> 2`, or a line of the text.
    pub(crate) fn find_event(&self, trace: &Trace, words: &[String]) -> Result<Place, Failure> {
        let joined = words.join(" ");
        if let Some(line) = number(&joined) {
            return trace.place(line)?.ok_or_else(|| no_event_on(line));
        }
        let streams = trace.streams();
        self.find_event_among(streams.pids(), |pid| streams.len(pid), &joined)
    }

    /// Finds the event that is named by its process, one of these, each with this number of events.
    pub(crate) fn find_event_among(
        &self,
        listed: &[Pid],
        count: impl Fn(Pid) -> u64,
        word: &str,
    ) -> Result<Place, Failure> {
        let parts = word.rsplit_once('#').or_else(|| word.rsplit_once(' '));
        let found = parts.and_then(|(process, index)| Some((process, number(index)?)));
        let Some((process, index)) = found else {
            return not_found(format!(
                "{word} isn't the name of an event: write shop#2, '<0.81.0> 2', or the number of \
                 its line"
            ));
        };
        let pid = self.find_process(listed, process)?;
        let has = match count(pid) {
            count if index < count => return Ok((pid, index)),
            0 => "it reported none".into(),
            1 => "it reported one, 0".into(),
            count => format!("it reported 0 to {}", count - 1),
        };
        not_found(format!("{process} has no event {index}; {has}"))
    }

    /// Finds the process of this name or pid among the listed ones, which rise.
    pub(crate) fn find_process(&self, listed: &[Pid], word: &str) -> Result<Pid, Failure> {
        let named = self.terms.processes.iter().filter(|(_, process)| &*process.name == word);
        let mut named: Vec<Pid> = named.map(|(&pid, _)| pid).collect();
        named.sort_unstable();
        let pid = gemshowal::read_pid(word).or_else(|| gemshowal::read_pid(format!("<{word}>")));
        let only = if let &[only] = &named[..] { Some(only) } else { None };
        let mut meant = [pid, only].into_iter().flatten();
        if let Some(pid) = meant.find(|pid| listed.binary_search(pid).is_ok()) {
            return Ok(pid);
        }
        if named.len() > 1 {
            let pids = few(named.iter().map(|&pid| gemshowal::Text(pid).to_string()));
            let called = format!("several processes are called {word}");
            return not_found(format!("{called}; write one by its pid: {pids}"));
        }
        let listed = few(listed.iter().map(|&pid| self.process(pid).into_owned()));
        not_found(format!("there is no process {word}; the trace has {listed}"))
    }

    /// Finds the label that is shown so, but for blanks, or has this number; else the only label.
    pub(crate) fn find_label(&self, trace: &Trace, text: Option<&str>) -> Result<Label, Failure> {
        self.find_label_among(&trace.events().map(|(_, event)| event.label.0).collect(), text)
    }

    pub(crate) fn find_label_among(
        &self,
        labels: &BTreeSet<u32>,
        text: Option<&str>,
    ) -> Result<Label, Failure> {
        let shown = || few(labels.iter().map(|&label| self.label(Label(label)).into_owned()));
        let Some(text) = text else {
            return match (labels.first(), labels.len()) {
                (None, _) => not_found("the trace has no events".into()),
                (Some(&label), 1) => Ok(Label(label)),
                (_, count) => {
                    let labels = format!("the trace has {count} labels");
                    not_found(format!("{labels}; choose one by --label: {}", shown()))
                }
            };
        };
        let is_meant =
            |&&label: &&u32| without_blanks(&self.label(Label(label))) == without_blanks(text);
        let meant: Vec<u32> = labels.iter().filter(is_meant).copied().collect();
        let numbered = number(text).and_then(|label| u32::try_from(label).ok());
        match (&meant[..], numbered) {
            (_, Some(label)) if labels.contains(&label) => Ok(Label(label)),
            (&[label], _) => Ok(Label(label)),
            ([], _) => not_found(format!("there is no label {text}; the trace has {}", shown())),
            (several, _) => {
                let numbers = few(several.iter().map(u32::to_string));
                let labels = format!("several labels are shown as {text}");
                not_found(format!("{labels}; write the number of one: {numbers}"))
            }
        }
    }
}

pub(crate) fn no_event_on(line: u64) -> Failure {
    Failure::NotFound(format!("there is no event on line {line}"))
}

fn few(names: impl ExactSizeIterator<Item = String>) -> String {
    let more = if names.len() > LISTED { ", .." } else { "" };
    names.take(LISTED).collect::<Vec<_>>().join(", ") + more
}

/// Returns the text without the blanks after commas, as far as that is no string.
fn without_blanks(text: &str) -> String {
    text.split(", ").map(str::trim).collect::<Vec<_>>().join(",")
}
