//! The meaning of a trace's numbers, by the files that lie next to `NAME.seqtrace`: `NAME.terms`,
//! `NAME.facts` and `NAME.times`.
//!
//! None of these files is proved to be of the trace, and anybody may have changed them. So a file
//! with a wrong line is refused, times that can't be of the trace are left out, and a terminal
//! never gets a control character of theirs.

mod brief;
mod elixir;
mod files;
mod line;
mod terms;
mod times;
mod which;

pub(crate) use files::Messages;
pub(crate) use line::Line;
pub(crate) use times::{Time, Times, TimesFile};
pub(crate) use which::no_event_on;

use crate::output::Notes;
use crate::Failure;
use gemshowal::{Label, Pid, Text, Trace};
use std::borrow::Cow;
use std::path::{Path, PathBuf};
use terms::Terms;

const TRACE: &str = "seqtrace";

/// Returns the file that a word of the command line names: `NAME.seqtrace` if there is one, else
/// the file of the word itself. `-` is standard input, whatever files there are.
pub(crate) fn trace_file(word: &Path) -> PathBuf {
    let named = Some(with_extension(word, TRACE)).filter(|_| word != Path::new("-"));
    named.filter(|file| file.is_file()).unwrap_or_else(|| word.into())
}

/// Appends an extension to a path, in place of nothing: `order.1` and `terms` give `order.1.terms`.
fn with_extension(name: &Path, extension: &str) -> PathBuf {
    let mut file = name.as_os_str().to_owned();
    file.push(".");
    file.push(extension);
    file.into()
}

/// Returns the file with this extension next to that of a trace. A file of another extension than
/// `seqtrace` has none, nor has standard input: all is then shown by its numbers.
fn beside(trace: &Path, extension: &str) -> Option<PathBuf> {
    let has_others = trace.extension().is_some_and(|own| own == TRACE);
    has_others.then(|| with_extension(&trace.with_extension(""), extension))
}

#[derive(Debug, Default)]
pub(crate) struct Names {
    terms: Terms,
    losses: Vec<String>,
    times: Option<Times>,
}

/// The beginning of each message by which `spawn_request` asks for a process.
const SPAWN_REQUEST: &str = "spawn erts_internal:spawn_init/1";

impl Names {
    /// Reads the files next to this file of a trace.
    pub(crate) fn beside(file: &Path, trace: &Trace, notes: &mut Notes) -> Result<Names, Failure> {
        let names = Names::without_times(file, notes)?;
        let Some(times) = TimesFile::beside(file)? else { return Ok(names) };
        Ok(Names { times: Times::read(&times, trace, notes)?, ..names })
    }

    pub(crate) fn without_times(file: &Path, notes: &mut Notes) -> Result<Names, Failure> {
        let Some(file) = beside(file, "terms") else { return Ok(Names::default()) };
        let mut names = Names::default();
        match Terms::read(&file)? {
            Some(terms) => names.terms = terms,
            None => notes.say(format_args!(
                "note: there is no {}, so numbers are shown in place of names",
                file.display()
            )),
        }
        names.losses = files::losses(&file.with_extension("facts"))?;
        Ok(names)
    }

    /// Takes the names of processes and labels by the files next to another part of the trace.
    pub(crate) fn join(&mut self, other: Names, file: &Path) -> Result<(), Failure> {
        let Some(label) = self.terms.join(other.terms) else { return Ok(()) };
        Err(Failure::Unlike { file: beside(file, "terms").unwrap_or_default(), label })
    }

    /// Returns the short name of a process, or its pid if it has none.
    pub(crate) fn process(&self, pid: Pid) -> Cow<'_, str> {
        named(self.terms.processes.get(&pid).map(|it| &*it.name), || Text(pid).to_string())
    }

    pub(crate) fn about(&self, pid: Pid) -> Option<&str> {
        self.terms.processes.get(&pid).map(|process| &*process.about)
    }

    /// Returns the word after this text in what is known of a process.
    pub(crate) fn word_about(&self, pid: Pid, before: &str) -> Option<&str> {
        self.about(pid)?.split_once(before)?.1.split([',', ' ']).next()
    }

    pub(crate) fn label(&self, label: Label) -> Cow<'_, str> {
        named(self.terms.label(label), || label.0.to_string())
    }

    /// Returns the term of a message, or `value` and its number if it has none.
    pub(crate) fn value(&self, value: u64) -> Cow<'_, str> {
        match self.terms.value(value) {
            Some(term) if self.terms.are_elixir => elixir::text(term).into(),
            Some(term) => term.into(),
            None => format!("value {value}").into(),
        }
    }

    /// Returns the term of a message as Erlang prints it, if the trace's file has one.
    pub(crate) fn term(&self, value: u64) -> Option<&str> {
        self.terms.value(value)
    }

    /// Returns how a message is sent and the term that it brings, as Erlang prints that: `call ` and
    /// `{take,apple,3}`. The way is empty if OTP has no form for it.
    pub(crate) fn way_and_term(&self, value: u64) -> Option<(Cow<'static, str>, &str)> {
        let term = self.terms.value(value)?;
        Some(brief::brief(term).unwrap_or((Cow::Borrowed(""), term)))
    }

    /// Returns the term of a message without the parts that every call, cast and reply of OTP's
    /// servers has: `call {take,apple,3}`.
    pub(crate) fn brief(&self, value: u64) -> Cow<'_, str> {
        match self.terms.value(value).and_then(brief::brief) {
            Some((way, term)) if self.terms.are_elixir => {
                (elixir::name(&way) + &elixir::text(term)).into()
            }
            Some((way, term)) => format!("{way}{term}").into(),
            None => self.value(value),
        }
    }

    /// Returns the name of an event: its process's, and its number among that process's events.
    pub(crate) fn event(&self, (pid, index): (Pid, u64)) -> String {
        format!("{}#{index}", self.process(pid))
    }

    /// Returns whether the nodes surely differ: one with many processes has further numbers.
    pub(crate) fn are_on_different_nodes(&self, one: Pid, other: Pid) -> bool {
        one.node() != other.node() && self.terms.further_nodes.is_empty()
    }

    pub(crate) fn losses(&self) -> &[String] {
        &self.losses
    }

    pub(crate) fn times(&self) -> Option<&Times> {
        self.times.as_ref()
    }

    /// Returns whether a message is the one by which OTP answers a spawn. It moves the counter of
    /// the process that asked for it.
    pub(crate) fn is_spawned(&self, value: u64) -> bool {
        self.way(value).is_some_and(|way| way == "spawned ")
    }

    /// Returns whether a message asks for a process by `spawn` or its kin, which wait for the reply
    /// and keep the token. The reply to `spawn_request`, whose process begins in `spawn_init`, is
    /// received as any message.
    pub(crate) fn is_awaited_spawn(&self, value: u64) -> bool {
        let is_spawn = self.way(value).is_some_and(|way| way.starts_with("spawn "));
        is_spawn && !self.is_spawn_request(value)
    }

    pub(crate) fn is_spawn_request(&self, value: u64) -> bool {
        self.way(value).is_some_and(|way| way.starts_with(SPAWN_REQUEST))
    }

    /// Returns whether a message tells a linked process of an exit.
    pub(crate) fn is_exit(&self, value: u64) -> bool {
        self.terms.value(value).is_some_and(|it| it.starts_with("{'EXIT',"))
    }

    /// Returns whether it is a reply to an alias, which a caller that waits no longer doesn't get.
    pub(crate) fn is_reply_to_alias(&self, value: u64) -> bool {
        self.terms.value(value).is_some_and(|it| it.starts_with("{[alias|"))
            && self.way(value).is_some_and(|way| way == "reply ")
    }

    fn way(&self, value: u64) -> Option<Cow<'static, str>> {
        Some(brief::brief(self.terms.value(value)?)?.0)
    }

    /// Returns whether this is a port, which reports no receive.
    pub(crate) fn is_port(&self, pid: Pid) -> bool {
        self.about(pid).is_some_and(|about| about.starts_with("port #Port<"))
    }

    /// Returns whether there is a file that says what numbers mean.
    pub(crate) fn has_terms(&self) -> bool {
        !self.terms.is_empty()
    }
}

fn named(name: Option<&str>, number: impl FnOnce() -> String) -> Cow<'_, str> {
    name.map_or_else(|| Cow::Owned(number()), Cow::Borrowed)
}
