//! A line under way, for the commands that write millions of them: `write!` takes far longer.

use super::Names;
use crate::object::EXACT;
use gemshowal::{Event, Kind, Label, Pid, Serial, Text};

/// A line under way. Each method appends something.
pub(crate) struct Line<'a>(pub(crate) &'a mut Vec<u8>);

impl Line<'_> {
    #[inline]
    pub(crate) fn text(&mut self, text: &str) -> &mut Self {
        self.0.extend_from_slice(text.as_bytes());
        self
    }

    pub(crate) fn number(&mut self, number: u64) -> &mut Self {
        Text(number).put(self.0);
        self
    }

    /// Appends a number as JSON: one that a reader may round is a string.
    pub(crate) fn json_number(&mut self, number: u64) -> &mut Self {
        let quote = if number > EXACT { "\"" } else { "" };
        self.text(quote).number(number).text(quote)
    }

    pub(crate) fn pid(&mut self, pid: Pid) -> &mut Self {
        Text(pid).put(self.0);
        self
    }

    pub(crate) fn serial(&mut self, serial: Serial) -> &mut Self {
        Text(serial).put(self.0);
        self
    }

    /// Appends a text as JSON, between quotes.
    pub(crate) fn string(&mut self, text: &str) -> &mut Self {
        // Ignores the error: a list of bytes takes all that is written to it.
        let _ = serde_json::to_writer(&mut *self.0, text);
        self
    }

    pub(crate) fn process(&mut self, names: &Names, pid: Pid) -> &mut Self {
        match names.terms.processes.get(&pid) {
            Some(process) => self.text(&process.name),
            None => self.pid(pid),
        }
    }

    /// Appends to whom a message went, or from whom it came.
    pub(crate) fn other_end(&mut self, names: &Names, event: &Event) {
        match (event.kind, event.to) {
            (Kind::Send, Some(to)) => self.text(" to ").process(names, to),
            (Kind::Receive, _) => self.text(" from ").process(names, event.from),
            _ => self,
        };
    }

    pub(crate) fn event(&mut self, names: &Names, (pid, index): (Pid, u64)) -> &mut Self {
        self.process(names, pid).text("#").number(index)
    }

    pub(crate) fn label(&mut self, names: &Names, label: Label) -> &mut Self {
        match names.terms.label(label) {
            Some(term) => self.text(term),
            None => self.number(label.0.into()),
        }
    }

    pub(crate) fn brief(&mut self, names: &Names, value: u64) -> &mut Self {
        match names.term(value) {
            Some(_) => self.text(&names.brief(value)),
            None => self.text("value ").number(value),
        }
    }
}
