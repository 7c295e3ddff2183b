//! The program `gemshowal`: what a trace says, for people and as JSON.
//!
//! What is found comes from the proved libraries, through `gemshowal` (the library); the words are
//! made here, and nothing of them is proved.
#![forbid(unsafe_code)]

mod args;
mod audit;
mod causes;
mod certain;
mod chart;
mod check;
mod complete;
mod cut;
mod diff;
mod erlang;
mod export;
mod failure;
#[cfg(test)]
mod fuzz;
mod input;
mod lint;
mod list;
mod messages;
mod moment;
mod names;
mod object;
mod output;
mod page;
mod pieces;
mod reason;
mod stats;
mod svg;
mod times;
mod view;
mod why;
mod words;

use crate::args::{Args, Command};
use crate::failure::{Ended, Failure, Status, PIPE};
use crate::input::Input;
use crate::output::{Notes, Output};
use serde::Serialize;
use std::env;
use std::io::ErrorKind;
use std::path::Path;
use std::process::ExitCode;

/// The status of a command line that isn't understood.
const USAGE: u8 = 3;

#[derive(Serialize)]
struct Failed {
    status: u8,
    error: String,
}

struct Task<'a> {
    json: bool,
    input: &'a mut Input,
    out: &'a mut Output,
    notes: &'a mut Notes,
}

fn run_on(command: &Command, task: Task<'_>) -> Ended {
    match command {
        Command::Audit(args) => audit::run(args, task),
        Command::Check(args) if args.node => check::run_on_node(task),
        Command::Check(_) | Command::Explain(_) => check::run(task),
        Command::Complete(args) => complete::run(args, task),
        Command::Cut(args) => cut::run(args, task),
        Command::Lint(args) => lint::run(args, task),
        Command::List(args) => list::run(args, task),
        Command::Page(args) => page::run(args, task),
        Command::Stats(_) => stats::run(task),
        Command::Collect | Command::Watch | Command::Convert | Command::Pieces(_) => {
            Ok(Status::Yes)
        }
        Command::Chart(args) => chart::run(args, task),
        Command::Diff(args) => diff::run(task, Input::open(&args.second)?),
        Command::Export(args) => export::run(args, task),
        Command::Times(_) => times::run(task),
        Command::Why(args) => why::run(args, task),
    }
}

/// Opens an input, and runs the command on it. A failure has an object in JSON too.
fn run_on_path(args: &Args, path: &Path, out: &mut Output, notes: &mut Notes) -> Ended {
    let Args { command, json, .. } = args;
    let opened = Input::open(path);
    let name = opened.as_ref().map_or_else(|_| path.to_string_lossy(), |it| it.name().into());
    out.begin(&name);
    opened
        .and_then(|mut input| {
            let task = Task { json: *json, input: &mut input, out, notes };
            let status = run_on(command, task)?;
            Ok(out.finish().map(|()| status)?)
        })
        .or_else(|failure| report(failure, *json, out))
}

/// Writes what there is to say of a failure, in place of a result.
fn report(failure: Failure, is_json: bool, out: &mut Output) -> Ended {
    out.forget();
    let ended = match failure {
        Failure::Never(no) => out.tell(is_json, "never", &no).map(|()| Ok(Status::No))?,
        failure if is_json && !matches!(failure, Failure::Unwritten(_)) => {
            let failed = Failed { status: failure.status(), error: failure.to_string() };
            out.report("failed", &failed)?;
            Err(failure)
        }
        failure => Err(failure),
    };
    out.finish()?;
    ended
}

/// Runs the command on one input after the other. The status is the worst of theirs.
fn run(word: &str, args: &Args) -> Result<u8, Failure> {
    if let Command::Pieces(pieces) = &args.command {
        return pieces::run(pieces, args.quiet);
    }
    let mut status = 0;
    let files = args.command.files();
    let has_headings = files.len() > 1 && !args.json;
    let mut out = Output::new(output::device(args.quiet)?, word, has_headings);
    for path in files {
        let mut notes = Notes::default();
        let ended = run_on_path(args, path, &mut out, &mut notes);
        if ended.as_ref().is_err_and(|failure| failure.status() == PIPE) {
            return Ok(PIPE);
        }
        if !args.quiet {
            notes.send();
        }
        status = status.max(match ended {
            Ok(ended) => ended as u8,
            Err(failure @ Failure::Unwritten(_)) => return Ok(status.max(complain(&failure))),
            Err(failure) => complain(&failure),
        });
    }
    Ok(status)
}

/// Says an error, and returns the status that it gives.
fn complain(failure: &Failure) -> u8 {
    output::complain(format_args!("error: {failure}\n"));
    failure.status()
}

/// Prints the words of the command line's reader: help, the version, or what it doesn't understand.
fn print(error: &clap::Error) -> u8 {
    match error.print() {
        Err(reason) if reason.kind() == ErrorKind::BrokenPipe => PIPE,
        Err(reason) => complain(&Failure::Unwritten(reason)),
        Ok(()) if error.use_stderr() => USAGE,
        Ok(()) => 0,
    }
}

fn main() -> ExitCode {
    let mut words = env::args_os().skip(1);
    let first = words.next().unwrap_or_default();
    if let Some(word) = erlang::COMMANDS.into_iter().find(|word| first == *word) {
        return ExitCode::from(complain(&erlang::hand_over(word, words)));
    }
    ExitCode::from(match Args::read() {
        Ok((word, args)) => run(&word, &args).unwrap_or_else(|failure| complain(&failure)),
        Err(error) => print(&error),
    })
}
