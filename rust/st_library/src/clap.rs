//! Command lines. The words are read by the registry's `clap`; what it would say of them isn't asked for. An unknown name of an
//! argument has no value here as with theirs, and ends no program.

use crate::alloc::{AllocError, Global};
use crate::convert::AsStr;
use ::clap::builder::{RangedI64ValueParser, ValueParser};
use std::any::Any;
use std::marker::PhantomData;

pub use ::clap::value_parser;

/// Why words couldn't be read.
pub mod error {
    /// The kinds of error that the sources tell apart.
    #[derive(Clone, Copy, Debug, PartialEq, Eq)]
    pub enum ErrorKind {
        /// Memory ran out. Rust's clap has no such kind: it ends the program.
        OutOfMemory,
        /// Any other, among them a wish for the help text.
        Other,
    }
}

/// Why words couldn't be read.
#[derive(Debug)]
pub struct Error {
    kind: error::ErrorKind,
}

impl Error {
    /// As theirs, of fewer kinds.
    pub fn kind(&self) -> error::ErrorKind {
        self.kind
    }
}

impl From<AllocError> for Error {
    fn from(_: AllocError) -> Error {
        Error { kind: error::ErrorKind::OutOfMemory }
    }
}

/// The values that an argument may have.
pub trait IntoParser {
    /// Clap's own form of it.
    fn into_parser(self) -> ValueParser;
}

/// A number.
impl IntoParser for RangedI64ValueParser<u32> {
    fn into_parser(self) -> ValueParser {
        self.into()
    }
}

/// A part of clap's own that is built call by call. Theirs borrows its texts, and this copies them.
#[derive(Clone, Debug)]
pub struct Built<'a, T> {
    inner: T,
    texts: PhantomData<&'a str>,
}

impl<'a, T> Built<'a, T> {
    fn of(inner: T) -> Built<'a, T> {
        Built { inner, texts: PhantomData }
    }

    fn with(self, change: impl FnOnce(T) -> T) -> Built<'a, T> {
        Built::of(change(self.inner))
    }
}

/// An argument.
pub type Arg<'a> = Built<'a, ::clap::Arg>;

impl<'a> Arg<'a> {
    /// As theirs.
    pub fn new(_: Global, id: &'a str) -> Arg<'a> {
        Built::of(::clap::Arg::new(id.to_string()))
    }

    /// As theirs.
    pub fn long(self, name: &'a str) -> Arg<'a> {
        self.with(|arg| arg.long(name.to_string()))
    }

    /// As theirs.
    pub fn required(self, required: bool) -> Arg<'a> {
        self.with(|arg| arg.required(required))
    }

    /// As theirs.
    pub fn value_parser<P: IntoParser>(self, parser: P) -> Arg<'a> {
        self.with(|arg| arg.value_parser(parser.into_parser()))
    }
}

/// A command. If memory runs out, its calls end the program.
pub type Command<'a> = Built<'a, ::clap::Command>;

impl<'a> Command<'a> {
    /// As theirs.
    pub fn new(_: Global, name: &'a str) -> Command<'a> {
        Built::of(::clap::Command::new(name.to_string()))
    }

    /// As theirs.
    pub fn arg(self, arg: Arg<'a>) -> Result<Command<'a>, AllocError> {
        Ok(self.with(|command| command.arg(arg.inner)))
    }

    /// As theirs.
    pub fn subcommand(self, command: Command<'a>) -> Result<Command<'a>, AllocError> {
        Ok(self.with(|outer| outer.subcommand(command.inner)))
    }

    /// The command that the words name, the program's name first. As theirs.
    pub fn try_get_matches_from<S: AsStr>(self, words: &'a [S]) -> Result<ArgMatches<'a>, Error> {
        match self.inner.try_get_matches_from(words.iter().map(|word| word.as_str().to_string())) {
            Ok(matches) => Ok(ArgMatches::of(matches)),
            Err(_) => Err(Error { kind: error::ErrorKind::Other }),
        }
    }
}

/// The values that the words gave.
#[derive(Debug)]
pub struct ArgMatches<'a> {
    inner: ::clap::ArgMatches,
    subcommand: Option<Box<(String, ArgMatches<'a>)>>,
    words: PhantomData<&'a str>,
}

impl<'a> ArgMatches<'a> {
    fn of(mut inner: ::clap::ArgMatches) -> ArgMatches<'a> {
        let subcommand = inner.remove_subcommand().map(|(name, found)| Box::new((name, ArgMatches::of(found))));
        ArgMatches { inner, subcommand, words: PhantomData }
    }

    /// The subcommand, and what its words gave. As theirs.
    pub fn subcommand(&self) -> Option<(&str, &ArgMatches<'a>)> {
        self.subcommand.as_deref().map(|(name, found)| (name.as_str(), found))
    }

    /// An argument's value. Theirs parses the text again, and this copies what was parsed.
    pub fn get_one<T: Any + Clone + Send + Sync>(&self, id: &str) -> Option<T> {
        self.inner.try_get_one::<T>(id).ok().flatten().cloned()
    }
}
