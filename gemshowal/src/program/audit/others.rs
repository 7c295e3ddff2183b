//! The options `--proved` and `--second`: other programs answer about the same text, and their
//! answer is compared with this one.

use super::outcome::{Outcome, Said};
use crate::args::Audit;
use crate::erlang::find;
use crate::Failure;
use gemshowal::{Act, Text, Trace, Verdict};
use std::env;
use std::fmt::{self, Display, Formatter};
use std::io::{self, Write};
use std::path::{Path, PathBuf};
use std::process::{Command, Stdio};
use std::thread;

#[derive(Clone, Copy, Debug, PartialEq, Eq)]
pub(super) enum Asked {
    /// `seqaudit` and `seqtool`, which the toolchain of Rattle proves.
    Proved,
    /// `seqcheck`, which is extracted from Coq.
    Second,
}

#[derive(Debug)]
pub(super) struct Comparison {
    pub(super) asked: Asked,
    /// Names the answer that is confirmed if they agree.
    what: &'static str,
    command: String,
    difference: Option<String>,
}

impl Comparison {
    pub(super) fn agrees(&self) -> bool {
        self.difference.is_none()
    }

    pub(super) fn word(&self) -> &'static str {
        if self.agrees() {
            "confirmed"
        } else {
            "differs"
        }
    }
}

impl Display for Comparison {
    fn fmt(&self, f: &mut Formatter<'_>) -> fmt::Result {
        let command = &self.command;
        let (others, differ) = match self.asked {
            Asked::Proved => ("the proved programs", "The proved programs differ"),
            Asked::Second => ("the second checker", "The second checker differs"),
        };
        match &self.difference {
            Some(how) => write!(f, "{differ}: {command} {how}."),
            None => write!(
                f,
                "{} is confirmed by {others} ({command}); words and names are gemshowal's own, and \
                 only tested.",
                self.what
            ),
        }
    }
}

pub(super) fn ask(
    args: &Audit,
    trace: &Trace,
    outcome: &Outcome,
    node_acts: Option<&[Act]>,
    name: &str,
) -> Result<Vec<Comparison>, Failure> {
    let proved_question = || match node_acts {
        Some(acts) => node_question(trace, acts, name),
        None => proved_question(trace, outcome, name),
    };
    let proved = args.proved.then(|| proved_question()?.compare(Asked::Proved));
    let second = args.second.then(|| second_question(trace, outcome, name)?.compare(Asked::Second));
    proved.into_iter().chain(second).collect()
}

/// A text for another program, and what that program does if it agrees.
struct Question {
    what: &'static str,
    program: PathBuf,
    command: &'static str,
    text: Vec<u8>,
    answer: Vec<u8>,
    status: i32,
}

/// Says what the other programs are asked, if that is about the manual's machine.
fn what(outcome: &Outcome) -> &'static str {
    match outcome.said {
        Said::Never(_) if !outcome.is_never() => "That the manual's machine has no run of it",
        Said::Completed(_) if outcome.judged.is_some() => {
            "That the manual's machine has a run of it with receives that nobody reported"
        }
        _ => "This answer",
    }
}

fn proved_question(trace: &Trace, outcome: &Outcome, name: &str) -> Result<Question, Failure> {
    let asked = outcome.ranked.as_ref().unwrap_or(trace);
    let (mut text, mut answer) = (Vec::new(), Vec::new());
    let is_standard = gemshowal::write_streams(&mut text, asked.streams())?;
    let (command, status) = match &outcome.said {
        Said::Fits(fits) => {
            asked.write_fits(&mut answer, fits)?;
            ("audit", 0)
        }
        Said::Completed(completion) => {
            gemshowal::write_added(&mut answer, completion)?;
            ("complete", 0)
        }
        Said::Never(against) => {
            let (pid, index) = against.place;
            trace.write_never(&mut answer, pid, index, against.never)?;
            ("complete", 1)
        }
        Said::Nothing => return Err(Failure::Wrapped(name.into())),
    };
    let mut program = proved_seqtool()?;
    if command == "audit" && is_standard {
        program = self::program("SEQAUDIT", "seqaudit", "make program builds the proved one")?;
    }
    Ok(Question { what: what(outcome), program, command, text, answer, status })
}

/// Asks whether acts are a run of a standard node.
fn node_question(trace: &Trace, acts: &[Act], name: &str) -> Result<Question, Failure> {
    let mut text = Vec::new();
    let written = trace.write_node_acts(&mut text, acts);
    written.map_err(|error| Failure::of_acts(error, name))?;
    let what = "That a standard node has such a run";
    let (answer, status) = (b"yes\n".to_vec(), 0);
    Ok(Question { what, program: proved_seqtool()?, command: "check --node", text, answer, status })
}

/// Asks about acts of a run if there are some, since the second checker looks for none.
fn second_question(trace: &Trace, outcome: &Outcome, name: &str) -> Result<Question, Failure> {
    let mut text = Vec::new();
    let (is_standard, command, status) = match &outcome.said {
        Said::Fits(fits) => {
            let trace = outcome.ranked.as_ref().unwrap_or(trace);
            trace.write_fits(&mut text, fits)?;
            (gemshowal::is_standard(trace.streams(), fits.acts().len()), "check", 0)
        }
        Said::Completed(completion) => {
            let written = trace.write_acts(&mut text, completion);
            (written.map_err(|error| Failure::of_acts(error, name))?, "check", 0)
        }
        Said::Never(_) => (gemshowal::write_streams(&mut text, trace.streams())?, "never", 1),
        Said::Nothing => return Err(Failure::Wrapped(name.into())),
    };
    let program = program("SEQCHECK", "seqcheck", "make -C coq builds it")?;
    if !is_standard {
        return Err(Failure::LargeForSecond(name.into()));
    }
    let answer = match &outcome.said {
        Said::Never(against) => {
            let (pid, index) = against.place;
            format!("never {} {index} {}\n", Text(pid), against.word()).into()
        }
        Said::Fits(_) | Said::Completed(_) | Said::Nothing => yes(&text)?,
    };
    Ok(Question { what: what(outcome), program, command, text, answer, status })
}

/// Returns the yes of `seqaudit check` about a text with acts that this program's checker accepts.
fn yes(text: &[u8]) -> Result<Vec<u8>, Failure> {
    let read = Trace::read(text).map_err(|error| Failure::Program(error.to_string()))?;
    let Some(Verdict::Yes(pairs)) = read.check()? else {
        return Err(Failure::Program("the checker refuses the acts that were built".into()));
    };
    let mut words = b"yes\n".to_vec();
    for (receive, send) in pairs.as_slice() {
        writeln!(words, "pair {receive} {send}")?;
    }
    Ok(words)
}

impl Question {
    /// Asks the program, and compares its bytes and its status with the expected ones.
    fn compare(&self, asked: Asked) -> Result<Comparison, Failure> {
        let Question { program, command, text, answer, status, .. } = self;
        let mut child = Command::new(program)
            .args(command.split(' '))
            .stdin(Stdio::piped())
            .stdout(Stdio::piped())
            .stderr(Stdio::null())
            .spawn()
            .map_err(|reason| unrun(program, &reason))?;
        let stdin = child.stdin.take();
        let ended = thread::scope(|scope| {
            // Ignores the error: a program that ends early has said why by then.
            scope.spawn(move || stdin.map(|mut stdin| stdin.write_all(text)));
            child.wait_with_output()
        });
        let ended = ended.map_err(|reason| unrun(program, &reason))?;
        let difference = match ended.status.code() {
            Some(code) if code == *status && ended.stdout == *answer => None,
            Some(code) if code == *status => Some("writes something else".into()),
            Some(code) => Some(format!("ends with status {code}, not {status}")),
            None => Some("was ended by a signal".into()),
        };
        let command = format!("{} {command}", program.display());
        Ok(Comparison { asked, what: self.what, command, difference })
    }
}

/// Finds the program that a variable names, or that lies next to this one or on the path.
fn program(variable: &str, name: &str, remedy: &str) -> Result<PathBuf, Failure> {
    let named = env::var_os(variable).filter(|path| !path.is_empty()).map(PathBuf::from);
    named.or_else(|| find(name)).ok_or_else(|| {
        Failure::Program(format!(
            "there is no {name} beside this program or on the path, and {variable} names none; \
             {remedy}"
        ))
    })
}

fn proved_seqtool() -> Result<PathBuf, Failure> {
    let program = program("SEQTOOL", "seqtool", "make program builds the proved one")?;
    check_version(&program)?;
    Ok(program)
}

/// Refuses a build that isn't proved, as far as it says so.
fn check_version(program: &Path) -> Result<(), Failure> {
    let said = Command::new(program).arg("--version").stderr(Stdio::null()).output();
    let said = said.map_err(|reason| unrun(program, &reason))?;
    if String::from_utf8_lossy(&said.stdout).contains("not proved") {
        return Err(Failure::Program(format!(
            "{} is a build that isn't proved; SEQTOOL and SEQAUDIT name the proved ones",
            program.display()
        )));
    }
    Ok(())
}

fn unrun(program: &Path, reason: &io::Error) -> Failure {
    Failure::Program(format!("{} can't be run: {reason}", program.display()))
}
