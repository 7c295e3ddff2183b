//! The command line.

use crate::names::{Names, Time};
use crate::view::Kept;
use crate::Failure;
use clap::error::ErrorKind;
use clap::{CommandFactory, FromArgMatches, Parser, Subcommand, ValueEnum};
use gemshowal::{Filter, Pid, Row, Span, Trace};
use std::collections::BTreeSet;
use std::ffi::OsString;
use std::path::{Path, PathBuf};

/// What a trace of Erlang's seq_trace says: whether it could have happened, what it lacks, and what
/// caused what.
#[derive(Parser)]
#[command(
    name = "gemshowal",
    bin_name = "gemshowal",
    version,
    after_help = include_str!("../../help/gemshowal.txt")
)]
pub(crate) struct Args {
    #[command(subcommand)]
    pub(crate) command: Command,
    /// Write no result and no note: the status tells
    #[arg(short, long, global = true)]
    pub(crate) quiet: bool,
    /// Write a JSON object for each trace, on a line (docs/schema.json)
    #[arg(long, global = true)]
    pub(crate) json: bool,
}

#[derive(Subcommand)]
pub(crate) enum Command {
    /// Says whether the events fit together, and what is missing
    #[command(after_help = include_str!("../../help/audit.txt"))]
    Audit(Audit),
    /// Prints the messages of a trace with what each event follows, or draws them
    #[command(after_help = include_str!("../../help/chart.txt"))]
    Chart(Chart),
    /// Says whether the acts in a text are a run that reports exactly its events
    #[command(after_help = include_str!("../../help/check.txt"))]
    Check(Check),
    /// Adds the unreported events that a run needs, or says why no run reports the trace
    #[command(after_help = include_str!("../../help/complete.txt"))]
    Complete(Complete),
    /// Writes a smaller trace, of the events that meet conditions
    #[command(after_help = include_str!("../../help/cut.txt"))]
    Cut(Cut),
    /// Says what check says: of acts that it refuses the act, what was due, what came
    #[command(after_help = include_str!("../../help/explain.txt"))]
    Explain(Inputs),
    /// Compares two traces of one program: what is new, gone or elsewhere in the second
    #[command(after_help = include_str!("../../help/diff.txt"))]
    Diff(Diff),
    /// Writes the trace for another program that draws
    #[command(after_help = include_str!("../../help/export.txt"))]
    Export(Export),
    /// Names the mistakes of a text, or mends them
    #[command(after_help = include_str!("../../help/lint.txt"))]
    Lint(Lint),
    /// Lists events: line, name, label, serial, message, partner
    #[command(after_help = include_str!("../../help/list.txt"))]
    List(List),
    /// Writes a page for a browser, with all labels: by cause, by time, searched, one chain alone
    #[command(after_help = include_str!("../../help/page.txt"))]
    Page(Page),
    /// Counts events and messages by process, pair and label
    #[command(after_help = include_str!("../../help/stats.txt"))]
    Stats(Inputs),
    /// Says how long messages and labels took
    #[command(after_help = include_str!("../../help/times.txt"))]
    Times(Inputs),
    /// Says what an event follows, and so on back, or what follows it
    #[command(after_help = include_str!("../../help/why.txt"))]
    Why(Why),
    /// Traces running nodes: a command of the Erlang application
    Collect,
    /// Traces nodes, and audits what came, period by period: a command of the Erlang application
    Watch,
    /// Makes a trace of files of events: a command of the Erlang application
    Convert,
    #[command(flatten)]
    Pieces(Pieces),
}

#[derive(clap::Args)]
pub(crate) struct Inputs {
    /// Traces: NAME (of NAME.seqtrace), a file, or - for standard input, which is read without one
    #[arg(value_name = "NAME", default_value = "-", hide_default_value = true)]
    names: Vec<PathBuf>,
}

#[derive(clap::Args)]
pub(crate) struct Check {
    #[command(flatten)]
    inputs: Inputs,
    /// Go by the rules of a standard node, as seqtool check --node does; spawns may end by answer
    /// PID PLACE
    #[arg(long)]
    pub(crate) node: bool,
}

#[derive(clap::Args)]
pub(crate) struct Audit {
    #[command(flatten)]
    inputs: Inputs,
    /// Write acts of a run that has the trace to this file; seqaudit check, or seqtool check
    /// --node, confirms them
    #[arg(long, value_name = "FILE")]
    pub(crate) acts: Option<PathBuf>,
    /// Ask the proved programs seqaudit and seqtool too, and say whether they agree
    #[arg(long)]
    pub(crate) proved: bool,
    /// Ask seqcheck too, the second checker (make -C coq), and say whether it agrees
    #[arg(long)]
    pub(crate) second: bool,
    /// Audit the events of each label by themselves, with a line for each label
    #[arg(long, conflicts_with_all = ["acts", "proved", "second"])]
    pub(crate) each_label: bool,
    #[command(flatten)]
    pub(crate) conditions: Conditions,
}

#[derive(clap::Args)]
pub(crate) struct Complete {
    #[command(flatten)]
    inputs: Inputs,
    /// What to write: the added events in words, a trace of all events, or acts for the trace
    #[arg(long = "as", value_name = "FORM", value_enum, default_value_t = Form::Added)]
    pub(crate) form: Form,
}

#[derive(Clone, Copy, Debug, PartialEq, Eq, ValueEnum)]
pub(crate) enum Form {
    #[value(help = "the events that it adds, in words")]
    Added,
    #[value(help = "the text of all its events")]
    Streams,
    #[value(help = "the text of the trace's events, and acts that show them")]
    Acts,
}

#[derive(clap::Args)]
pub(crate) struct Cut {
    /// The parts of the trace, in order: NAME (of NAME.seqtrace), files, or - for standard input
    #[arg(value_name = "NAME", default_value = "-", hide_default_value = true)]
    pub(crate) names: Vec<PathBuf>,
    #[command(flatten)]
    pub(crate) conditions: Conditions,
    /// Only events near this one in its process, and the other ends of their messages: shop#2,
    /// '<0.81.0> 2', FILE:LINE, or a line of the only file; may be given several times
    #[arg(long, value_name = "EVENT")]
    pub(crate) around: Vec<String>,
    /// How many events before and after each of these are near
    #[arg(long, value_name = "N", default_value_t = 10, requires = "around")]
    pub(crate) near: u64,
}

#[derive(clap::Args)]
pub(crate) struct Diff {
    /// The trace before a change; - is standard input
    #[arg(value_name = "A")]
    first: PathBuf,
    /// The trace after it; - is standard input
    #[arg(value_name = "B")]
    pub(crate) second: PathBuf,
}

#[derive(clap::Args)]
pub(crate) struct Export {
    #[command(flatten)]
    inputs: Inputs,
    /// For which program
    #[arg(long = "as", value_enum)]
    pub(crate) target: Target,
    /// Only the events of this label, by its term or its number
    #[arg(long)]
    pub(crate) label: Option<String>,
}

#[derive(Clone, Copy, Debug, PartialEq, Eq, ValueEnum)]
pub(crate) enum Target {
    #[value(help = "Perfetto: slices and flows")]
    Perfetto,
    #[value(help = "OpenTelemetry, as Jaeger shows it: spans, of a trace with times")]
    Otlp,
    #[value(help = "ShiViz: a log with vector clocks")]
    Shiviz,
    #[value(help = "Mermaid: a sequence diagram")]
    Mermaid,
    #[value(help = "Graphviz: a graph of the events")]
    Dot,
}

#[derive(clap::Args)]
pub(crate) struct Lint {
    #[command(flatten)]
    inputs: Inputs,
    /// Name at most so many mistakes
    #[arg(long, value_name = "N", default_value_t = 10)]
    pub(crate) most: usize,
    /// Write the text with those mistakes mended that have one remedy
    #[arg(long, conflicts_with = "most")]
    pub(crate) fix: bool,
}

#[derive(clap::Args)]
pub(crate) struct List {
    #[command(flatten)]
    inputs: Inputs,
    #[command(flatten)]
    pub(crate) conditions: Conditions,
}

#[derive(clap::Args)]
pub(crate) struct Conditions {
    /// Only events with this label, a number or a term
    #[arg(long)]
    pub(crate) label: Option<String>,
    /// Only events of this process, by its name or pid
    #[arg(long, value_name = "NAME")]
    pub(crate) process: Option<String>,
    /// Only events on these lines of the text, as 7, 7-9 or 7-
    #[arg(long, value_parser = span)]
    pub(crate) lines: Option<Span>,
    /// Only events with these counts (the second number of the serial)
    #[arg(long, value_parser = span)]
    pub(crate) counts: Option<Span>,
    /// Only events from this time on, in seconds after the first event; it needs NAME.times
    #[arg(long, value_name = "SECONDS")]
    from: Option<f64>,
    /// Only events up to this time
    #[arg(long, value_name = "SECONDS")]
    to: Option<f64>,
}

impl Conditions {
    pub(crate) fn are_none(&self) -> bool {
        let Conditions { label, process, lines, counts, .. } = self;
        (label.is_none() && process.is_none() && lines.is_none() && counts.is_none())
            && !self.are_of_time()
    }

    pub(crate) fn are_of_time(&self) -> bool {
        self.from.is_some() || self.to.is_some()
    }

    /// Makes the conditions but for times, on the events of a trace with these names.
    pub(crate) fn filter(&self, trace: &Trace, names: &Names) -> Result<Filter, Failure> {
        if self.are_of_time() && names.times().is_none() {
            return Err(Failure::NoTimes);
        }
        let labels = || trace.events().map(|(_, event)| event.label.0).collect();
        self.filter_among(names, labels, trace.streams().pids())
    }

    /// Makes the conditions but for times, on events of these labels and processes.
    pub(crate) fn filter_among(
        &self,
        names: &Names,
        labels: impl FnOnce() -> BTreeSet<u32>,
        pids: &[Pid],
    ) -> Result<Filter, Failure> {
        let label = self.label.as_deref();
        let label = label.map(|label| names.find_label_among(&labels(), Some(label)));
        let process = self.process.as_deref().map(|name| names.find_process(pids, name));
        let (label, process) = (label.transpose()?, process.transpose()?);
        Ok(Filter { label, process, lines: self.lines, counts: self.counts })
    }

    /// Returns whether an event meets the conditions on times.
    pub(crate) fn are_met(&self, row: &Row, names: &Names) -> bool {
        let time = || names.times()?.of_event((row.pid, row.index));
        !self.are_of_time() || time().is_some_and(|time| self.cover(time))
    }

    /// Returns whether an event that happened this long after the first one meets them.
    pub(crate) fn cover(&self, time: Time) -> bool {
        let seconds = time as f64 / 1e9;
        self.from.is_none_or(|from| seconds >= from) && self.to.is_none_or(|to| seconds <= to)
    }

    /// Returns the places of the events that meet all conditions.
    pub(crate) fn kept(&self, trace: &Trace, names: &Names) -> Result<Kept, Failure> {
        let mut kept = Kept::new();
        let rows = trace.list(&self.filter(trace, names)?)?;
        for row in rows.iter().filter(|row| self.are_met(row, names)) {
            kept.entry(row.pid).or_default().push(row.index);
        }
        Ok(kept)
    }
}

#[derive(clap::Args)]
pub(crate) struct Chart {
    #[command(flatten)]
    inputs: Inputs,
    /// The label, as it is shown or by its number; else all labels
    #[arg(long)]
    pub(crate) label: Option<String>,
    /// Draw it as well, into this file
    #[arg(long, value_name = "FILE")]
    pub(crate) svg: Option<PathBuf>,
}

#[derive(clap::Args)]
pub(crate) struct Page {
    #[command(flatten)]
    inputs: Inputs,
    /// Write it to this file, for its owner alone; else to standard output
    #[arg(short, long, value_name = "FILE")]
    pub(crate) out: Option<PathBuf>,
    /// Show this label alone at first
    #[arg(long)]
    pub(crate) label: Option<String>,
}

#[derive(clap::Args)]
pub(crate) struct Why {
    /// The trace: NAME (of NAME.seqtrace), a file, or - for standard input
    #[arg(value_name = "NAME")]
    name: PathBuf,
    /// The event: shop#2, '<0.81.0> 2', or the number of its line
    #[arg(required = true, num_args = 1..=2)]
    pub(crate) event: Vec<String>,
    /// Say what follows the event, as a tree
    #[arg(long)]
    pub(crate) effects: bool,
    /// Go on over a change of label
    #[arg(long)]
    pub(crate) across: bool,
    /// At most so many events back, or levels of the tree
    #[arg(long, value_name = "N", default_value_t = u64::MAX, hide_default_value = true)]
    pub(crate) depth: u64,
}

#[derive(Subcommand)]
pub(crate) enum Pieces {
    /// Says whether any run without a reset has a trace of any size, in one file or many
    #[command(after_help = include_str!("../../help/verdict.txt"))]
    Verdict(Verdict),
    /// Writes the events of a trace for a sort, as the first of three filters
    #[command(after_help = include_str!("../../help/scatter.txt"))]
    Scatter(Scatter),
    /// Judges each process by the sorted lines of scatter, as the second of three filters
    Judge(Sorted),
    /// Says the verdict by the sorted lines of judge, as the last of three filters
    Gather(Sorted),
}

#[derive(clap::Args)]
pub(crate) struct Verdict {
    /// The parts of the trace, in order: files, NAME of NAME.seqtrace, or - for standard input
    #[arg(value_name = "NAME", default_value = "-")]
    pub(crate) files: Vec<PathBuf>,
    /// The most memory that sort may take
    #[arg(long, value_name = "SIZE", default_value = "1G")]
    pub(crate) memory: OsString,
}

#[derive(clap::Args)]
pub(crate) struct Scatter {
    /// The parts of the trace, in order: files, NAME of NAME.seqtrace, or - for standard input
    #[arg(value_name = "NAME", default_value = "-")]
    pub(crate) files: Vec<PathBuf>,
    /// The number of the first part, if others are scattered elsewhere
    #[arg(long, value_name = "N", default_value_t = 0)]
    pub(crate) part: u16,
}

#[derive(clap::Args)]
pub(crate) struct Sorted {
    /// A file of sorted lines, or - for standard input
    #[arg(value_name = "FILE", default_value = "-")]
    pub(crate) file: PathBuf,
}

impl Command {
    pub(crate) fn files(&self) -> &[PathBuf] {
        match self {
            Command::Audit(Audit { inputs, .. })
            | Command::Chart(Chart { inputs, .. })
            | Command::Check(Check { inputs, .. })
            | Command::Complete(Complete { inputs, .. })
            | Command::Explain(inputs)
            | Command::Export(Export { inputs, .. })
            | Command::Lint(Lint { inputs, .. })
            | Command::List(List { inputs, .. })
            | Command::Page(Page { inputs, .. })
            | Command::Stats(inputs)
            | Command::Times(inputs) => &inputs.names,
            Command::Cut(args) => &args.names[..1],
            Command::Diff(args) => std::slice::from_ref(&args.first),
            Command::Why(args) => std::slice::from_ref(&args.name),
            Command::Collect | Command::Watch | Command::Convert | Command::Pieces(_) => &[],
        }
    }

    /// Returns whether the command writes a text, and so takes a single input.
    fn writes_text(&self) -> bool {
        match self {
            Command::Audit(audit) => audit.acts.is_some(),
            Command::Chart(chart) => chart.svg.is_some(),
            _ => self.text_option().is_some(),
        }
    }

    /// Returns the option that has no JSON.
    fn text_option(&self) -> Option<&'static str> {
        match self {
            Command::Chart(_) => Some("chart"),
            Command::Cut(_) => Some("cut"),
            Command::Export(_) => Some("export"),
            Command::Page(_) => Some("page"),
            Command::Pieces(_) => Some("verdict"),
            Command::Lint(lint) => lint.fix.then_some("--fix"),
            Command::Complete(complete) => (complete.form != Form::Added).then_some("--as"),
            _ => None,
        }
    }
}

impl Args {
    /// Reads the command line, and returns the command's name with its arguments.
    pub(crate) fn read() -> Result<(String, Args), clap::Error> {
        let matches = Args::command().try_get_matches()?;
        let word = matches.subcommand_name().unwrap_or_default().to_owned();
        Ok((word, Args::from_arg_matches(&matches)?.checked()?))
    }

    /// Refuses arguments that don't go together.
    fn checked(self) -> Result<Args, clap::Error> {
        let command = &self.command;
        let wrong = |words: String| Err(Args::command().error(ErrorKind::ValueValidation, words));
        let names = match command {
            Command::Cut(cut) => &cut.names,
            command => command.files(),
        };
        if names.iter().filter(|file| *file == Path::new("-")).count() > 1 {
            return wrong("standard input is read once: name it once".into());
        }
        if command.writes_text() && command.files().len() > 1 {
            return wrong("what this writes is of one trace: name one alone".into());
        }
        match (command, command.text_option()) {
            (Command::Cut(cut), _) if cut.names.len() > 1 && cut.conditions.lines.is_some() => {
                wrong("--lines are those of one file: ask for --around FILE:LINE".into())
            }
            (Command::Diff(diff), _)
                if diff.first == diff.second && diff.first == Path::new("-") =>
            {
                wrong("both traces are standard input: name the file of one".into())
            }
            (_, Some(option)) if self.json => {
                wrong(format!("{option} writes no JSON: leave out {option}, or --json"))
            }
            _ => Ok(self),
        }
    }
}

/// Reads a span of numbers: from A to B, one alone, or all from one on.
fn span(text: &str) -> Result<Span, &'static str> {
    let ends = || {
        let (first, last) = text.split_once('-').unwrap_or((text, text));
        let first = first.parse().ok()?;
        let last = if last.is_empty() { u64::MAX } else { last.parse().ok()? };
        (first <= last).then_some(Span { first, last })
    };
    ends().ok_or("write one number as 7, several as 7-9, all from 7 on as 7-")
}
