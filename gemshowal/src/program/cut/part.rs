//! The parts of a trace. Each can be read several times.

use crate::input::{Input, Spooled};
use crate::names::Names;
use crate::output::Notes;
use crate::pieces::{walk, Entry, BUFFER};
use crate::{lint, Failure};
use gemshowal::Pid;
use std::collections::{BTreeMap, HashMap};
use std::io::{self, BufReader, Read};
use std::path::{Path, PathBuf};

/// The most bytes of a text whose mistakes `lint` describes. In a longer text the line is named.
const DESCRIBED: u64 = 67_108_864;

pub(super) struct Part {
    /// The file as the command line names it, and as it is found.
    word: PathBuf,
    pub(super) path: PathBuf,
    /// The name on one line.
    name: String,
    /// The bytes, if they can't be read again: those of standard input or of a pipe.
    spooled: Option<Spooled<Box<dyn Read>>>,
}

/// The number of a part, and that of a line of its text.
pub(super) type Line = (usize, u64);

pub(super) struct Parts(Vec<Part>);

impl Part {
    fn new(input: &mut Input, word: &Path) -> Result<Part, Failure> {
        let (path, name) = (input.path().to_owned(), input.line_name().to_owned());
        let mut spooled = (!input.is_regular()).then(|| Spooled::new(input.take()));
        if let Some(spooled) = &mut spooled {
            let read = io::copy(spooled, &mut io::sink());
            read.map_err(|reason| Failure::Unread(name.clone(), reason))?;
        }
        Ok(Part { word: word.to_owned(), path, name, spooled })
    }

    fn read(&mut self) -> Result<Box<dyn Read + '_>, Failure> {
        let Some(spooled) = &mut self.spooled else { return Ok(Input::open(&self.path)?.take()) };
        let kept = spooled.replay().map_err(|reason| Failure::Unread(self.name.clone(), reason))?;
        Ok(Box::new(kept))
    }

    pub(super) fn is_called(&self, word: &str) -> bool {
        let word = Path::new(word);
        self.word == word || self.path == word
    }

    /// Describes the mistake of a text that is refused as `lint` does, if it is short.
    fn describe(&mut self, plain: String) -> Failure {
        let mut text = Vec::new();
        let read = self.read().map(|input| input.take(DESCRIBED + 1).read_to_end(&mut text));
        let is_whole = matches!(read, Ok(Ok(length)) if length as u64 <= DESCRIBED);
        let words = if is_whole { lint::first_refused(&text) } else { None };
        Failure::Faulty(self.name.clone(), words.unwrap_or(plain))
    }
}

impl Parts {
    /// Takes the first part, which is opened, and the files of the others.
    pub(super) fn new(first: &mut Input, files: &[PathBuf]) -> Result<Parts, Failure> {
        let part = |(number, file): (usize, &PathBuf)| match number {
            0 => Part::new(first, file),
            _ => Part::new(&mut Input::open(file)?, file),
        };
        Ok(Parts(files.iter().enumerate().map(part).collect::<Result<_, _>>()?))
    }

    pub(super) fn iter(&self) -> impl ExactSizeIterator<Item = &Part> {
        self.0.iter()
    }

    pub(super) fn names(&self, notes: &mut Notes) -> Result<Names, Failure> {
        let mut names = Names::default();
        for part in &self.0 {
            names.join(Names::without_times(&part.path, notes)?, &part.path)?;
        }
        Ok(names)
    }

    /// Hands on each line with the number of events that its process has in the parts before, and
    /// returns how many events the processes have.
    pub(super) fn walk(
        &mut self,
        mut each: impl FnMut(Line, u64, Entry<'_>) -> Result<(), Failure>,
    ) -> Result<BTreeMap<Pid, u64>, Failure> {
        let (mut numbers, mut counts) = (HashMap::<Pid, usize>::new(), Vec::new());
        for at in 0..self.0.len() {
            let (mut process, mut before) = (0, 0);
            let part = &mut self.0[at];
            let name = part.name.clone();
            let input = BufReader::with_capacity(BUFFER, part.read()?);
            let walked = walk(&name, input, |number, entry| {
                match &entry {
                    Entry::Process(pid) => {
                        process = *numbers.entry(*pid).or_insert(counts.len());
                        counts.resize(numbers.len(), 0);
                        before = counts[process];
                    }
                    Entry::Event(_) => counts[process] += 1,
                    Entry::Act(_) => {}
                }
                each((at, number), before, entry)
            });
            walked.map_err(|failure| match failure {
                Failure::Faulty(_, words) => self.describe(at, words),
                other => other,
            })?;
        }
        Ok(numbers.into_iter().map(|(pid, number)| (pid, counts[number])).collect())
    }

    /// Refuses a part for these words. The mistakes that `lint` finds are those of a whole trace.
    pub(super) fn describe(&mut self, part: usize, words: String) -> Failure {
        match &mut self.0[..] {
            [one] => one.describe(words),
            parts => Failure::Faulty(parts[part].name.clone(), words),
        }
    }
}
