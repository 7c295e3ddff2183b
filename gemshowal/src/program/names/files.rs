//! The files that lie next to a trace: `NAME.terms`, `NAME.facts`, `NAME.times` and
//! `NAME.messages`. Each begins with a header, and has an entry on each further line.
//!
//! Whatever text one of them has, a terminal or a page shows characters alone, on their line and in
//! their order.

use super::Names;
use crate::Failure;
use std::borrow::Cow;
use std::collections::{BTreeSet, HashMap};
use std::fs::File;
use std::io::{BufRead, BufReader, ErrorKind};
use std::path::Path;

/// A line of a file without its end, and its number.
type Numbered = Result<(usize, String), Failure>;

/// Opens a file, if it is there, to hand on the lines after the header.
pub(super) fn open_lines(
    file: &Path,
    header: &'static str,
) -> Result<Option<impl Iterator<Item = Numbered>>, Failure> {
    let opened = match File::open(file) {
        Ok(opened) => BufReader::new(opened),
        Err(reason) if reason.kind() == ErrorKind::NotFound => return Ok(None),
        Err(reason) => return Err(Failure::Unread(file.display().to_string(), reason)),
    };
    let path = file.to_owned();
    let mut lines = opened.split(b'\n').zip(1..).map(move |(line, number)| {
        let line = line.map_err(|reason| Failure::Unread(path.display().to_string(), reason))?;
        let wrong =
            |_| Failure::Wrong { file: path.clone(), line: number, wanted: "text in UTF-8" };
        Ok((number, String::from_utf8(line).map_err(wrong)?))
    });
    match lines.next().transpose()? {
        Some((_, first)) if first == header => Ok(Some(lines)),
        _ => Err(Failure::Wrong { file: file.into(), line: 1, wanted: header }),
    }
}

/// Takes each line of a file after the header, if the file is there, and returns whether it is. The
/// function returns `None` if a line isn't what is wanted.
pub(super) fn take(
    file: &Path,
    header: &'static str,
    wanted: &'static str,
    mut take: impl FnMut(&str) -> Option<()>,
) -> Result<bool, Failure> {
    let Some(lines) = open_lines(file, header)? else { return Ok(false) };
    for line in lines {
        let (line, text) = line?;
        take(&text).ok_or_else(|| Failure::Wrong { file: file.into(), line, wanted })?;
    }
    Ok(true)
}

pub(super) fn number(text: &str) -> Option<u64> {
    text.bytes().all(|byte| byte.is_ascii_digit()).then(|| text.parse().ok())?
}

/// Returns whether a character controls a terminal, begins a line or turns the direction of
/// writing. The marks of direction are those of Unicode's bidirectional algorithm.
fn is_control(c: char) -> bool {
    c.is_control()
        || matches!(c, '\u{200E}' | '\u{200F}' | '\u{2028}'..='\u{202E}' | '\u{2066}'..='\u{2069}')
}

/// Returns the text with its control characters escaped as in Erlang's strings: `\x{1B}`.
pub(super) fn escaped(text: &str) -> Cow<'_, str> {
    if !text.chars().any(is_control) {
        return text.into();
    }
    let shown = |c| match is_control(c) {
        true => format!("\\x{{{:X}}}", u32::from(c)),
        false => c.to_string(),
    };
    text.chars().map(shown).collect::<String>().into()
}

/// The kinds of facts that tell of a loss. The others say how the trace was made.
const LOSSES: &str = "nothing lost unread ended dropped left damaged newer no_events pauses \
    written_over taken nameless";

/// Returns the losses of the conversion by `NAME.facts`, none if there is no file. A line is the
/// kind of a fact, a tab and a sentence.
pub(super) fn losses(facts: &Path) -> Result<Vec<String>, Failure> {
    let mut losses = Vec::new();
    let is_of_kind = |byte: u8| byte.is_ascii_lowercase() || byte == b'_';
    take(facts, "seqaudit facts 1", "an entry of NAME.facts", |line| {
        let (kind, sentence) = line.split_once('\t')?;
        let is_loss = LOSSES.split(' ').any(|loss| loss == kind);
        losses.extend(is_loss.then(|| escaped(sentence).into_owned()));
        (!kind.is_empty() && kind.bytes().all(is_of_kind)).then_some(())
    })?;
    Ok(losses)
}

/// The whole texts of the messages that `NAME.terms` has cut, by `NAME.messages`, of which a line
/// is `value NUMBER TERM`, with tabs between. Only a page shows them.
#[derive(Debug, Default)]
pub(crate) struct Messages(HashMap<u64, String>);

impl Messages {
    /// Reads the texts next to this trace for which `wants` is true; none if there is no file.
    pub(crate) fn beside(trace: &Path, wants: impl Fn(u64) -> bool) -> Result<Messages, Failure> {
        let mut messages = HashMap::new();
        let Some(file) = super::beside(trace, "messages") else { return Ok(Messages(messages)) };
        take(&file, "seqaudit messages 1", "an entry of NAME.messages", |line| {
            let (value, term) = line.strip_prefix("value\t")?.split_once('\t')?;
            let value = number(value)?;
            messages.extend(wants(value).then(|| (value, escaped(term).into_owned())));
            Some(())
        })?;
        Ok(Messages(messages))
    }

    /// Returns the text of a message: whole if this file or the legend has it whole.
    pub(crate) fn text<'a>(&'a self, value: u64, names: &'a Names) -> Cow<'a, str> {
        self.0.get(&value).map_or_else(|| names.value(value), |text| Cow::Borrowed(text.as_str()))
    }

    /// Returns the length to which the texts of these messages are cut so that they have this
    /// number of characters together: what the short ones leave is shared among the others. Returns
    /// `None` if all fit.
    pub(crate) fn most(&self, values: &BTreeSet<u64>, names: &Names, room: usize) -> Option<usize> {
        let length = |&value: &u64| self.text(value, names).chars().count();
        let mut lengths: Vec<usize> = values.iter().map(length).collect();
        lengths.sort_unstable();
        let mut left = room;
        for (&length, others) in lengths.iter().zip((1..=lengths.len()).rev()) {
            if length.saturating_mul(others) > left {
                return Some(left / others);
            }
            left -= length;
        }
        None
    }
}
