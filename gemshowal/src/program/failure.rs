//! The ends of a command: its status, or the reason why there is no result.

use crate::reason::No;
use gemshowal::{CertificateError, CompleteError, OutOfMemory};
use std::io::{self, ErrorKind};
use std::path::PathBuf;
use thiserror::Error;

#[derive(Clone, Copy, Debug, PartialEq, Eq)]
pub(crate) enum Status {
    Yes = 0,
    No = 1,
    Faulty = 2,
    Differs = 4,
    /// There is an answer, too long to be read again.
    Long = 5,
}

/// How a command ends on an input.
pub(crate) type Ended = Result<Status, Failure>;

/// The status after the reader has gone: the one that a shell gives a program ended by SIGPIPE.
pub(crate) const PIPE: u8 = 141;

/// The reason why there is no result. `{0}` is the input's name.
#[derive(Debug, Error)]
pub(crate) enum Failure {
    #[error("memory ran out")]
    Memory(#[from] OutOfMemory),
    #[error(transparent)]
    Uncompleted(#[from] CompleteError),
    /// No run reports the trace: a result, and no error.
    #[error("{0}")]
    Never(Box<No>),
    #[error("{0} can't be opened: {1}")]
    Unopened(String, #[source] io::Error),
    #[error("{0} can't be read: {1}")]
    Unread(String, #[source] io::Error),
    #[error("{0} has more than {most} bytes", most = gemshowal::LIMITS.bytes)]
    TooLarge(String),
    #[error("{0}{1}; see gemshowal lint")]
    Faulty(String, String),
    #[error(
        "the counters of {0} have wrapped: such a trace is audited without --proved and --second"
    )]
    Wrapped(String),
    #[error("{0}")]
    Torn(String),
    #[error("{0} has no acts: look for some with gemshowal audit --acts")]
    NoActs(String),
    #[error("{}, line {line}, isn't {wanted}; convert it anew", .file.display())]
    Wrong { file: PathBuf, line: usize, wanted: &'static str },
    #[error(
        "{} calls label {label} otherwise than a file before it: they aren't parts of one trace",
        .file.display()
    )]
    Unlike { file: PathBuf, label: u32 },
    #[error("{0}")]
    NotFound(String),
    #[error("the trace has no times: events need the flag timestamp, and NAME.times beside it")]
    NoTimes,
    #[error("the files' times can't be compared: those of one tell no date")]
    NoDate,
    #[error("{0} is of another trace: it has events that aren't there")]
    OtherTimes(String),
    #[error("the cut leaves none of {0}: no event has all that the options ask for")]
    NothingLeft(String),
    #[error("{0} has a completion, with more acts or processes than are read")]
    TooLong(String),
    #[error("{0} is too large for the second checker, which reads as much as seqaudit does")]
    LargeForSecond(String),
    #[error("the acts that were built don't show the streams of {0}")]
    Uncertified(String),
    #[error("{0} can't be written: {1}")]
    Unkept(String, #[source] io::Error),
    #[error("{0}")]
    Program(String),
    #[error(
        "the chart has {0} rows, and a drawing takes {1}: make a page (gemshowal page), or cut the \
         trace"
    )]
    TooManyRows(usize, usize),
    #[error("the chart of {0} would be too long; gemshowal cut makes a smaller trace")]
    LongChart(String),
    #[error("standard output can't be written: {0}")]
    Unwritten(#[from] io::Error),
}

impl Failure {
    pub(crate) fn status(&self) -> u8 {
        match self {
            Failure::TooLarge(_)
            | Failure::Faulty(..)
            | Failure::Wrapped(_)
            | Failure::Torn(_)
            | Failure::NoActs(_)
            | Failure::OtherTimes(_)
            | Failure::Wrong { .. }
            | Failure::Unlike { .. } => Status::Faulty as u8,
            Failure::NotFound(_) | Failure::NoTimes | Failure::NoDate | Failure::NothingLeft(_) => {
                Status::No as u8
            }
            Failure::Unread(_, reason) if reason.kind() == ErrorKind::InvalidData => {
                Status::Faulty as u8
            }
            Failure::TooLong(_)
            | Failure::LargeForSecond(_)
            | Failure::TooManyRows(..)
            | Failure::LongChart(_) => Status::Long as u8,
            Failure::Unwritten(reason) if reason.kind() == ErrorKind::BrokenPipe => PIPE,
            _ => 4,
        }
    }

    pub(crate) fn of_acts(error: CertificateError, name: &str) -> Failure {
        match error {
            CertificateError::Io(reason) => reason.into(),
            CertificateError::Memory(error) => error.into(),
            CertificateError::TooLong => Failure::TooLong(name.into()),
            CertificateError::Uncertified => Failure::Uncertified(name.into()),
        }
    }
}

impl From<serde_json::Error> for Failure {
    /// Takes the error for the writer's: our own objects always have a text.
    fn from(error: serde_json::Error) -> Failure {
        Failure::Unwritten(error.into())
    }
}
