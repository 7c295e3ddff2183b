//! Acts of a standard node: those of the text form, and the ends of spawns.
//!
//! A text of version 3 may have acts too, and the line of a spawn's end is `answer PID PLACE`. It
//! is rewritten as the receive that the proved reader knows. The rewriting isn't proved.

use crate::{
    signed, CertificateError, Event, Kind, NodeTrace, OutOfMemory, ReadError, Text, WRAPPED,
};
use node_check::{NodeAct, NodeVerdict};
use st_core::{Act, Want};
use st_library::alloc::Global;
use std::fmt::{self, Display, Formatter};
use std::io::{self, Write};

/// The line after which the acts follow.
const ACTS: &[u8] = b"acts\n";

const ANSWER: &[u8] = b"answer ";

impl NodeTrace {
    /// Reads a text of version 3, and its acts if it has a list of them.
    pub fn read_with_acts(text: Vec<u8>) -> Result<(NodeTrace, Option<Vec<NodeAct>>), ReadError> {
        let mut answers = answer_numbers(&text).into_iter().peekable();
        let node = NodeTrace::read(text)?;
        let node_act = |(act, number): (&Act, u64)| match *act {
            Act::Receive(pid, Want::Place(place)) if answers.next_if_eq(&number).is_some() => {
                NodeAct::Answer(pid, place)
            }
            act => NodeAct::Common(act),
        };
        let acts = node.trace().acts().map(|acts| acts.iter().zip(0..).map(node_act).collect());
        Ok((node, acts))
    }

    /// Checks whether the acts are a run of a standard node in which each process reports exactly
    /// its events.
    pub fn check(&self, acts: &[NodeAct]) -> Result<NodeVerdict, OutOfMemory> {
        node_check::check_node(Global, self.trace().streams(), acts).map_err(|_| OutOfMemory)
    }

    /// Writes the trace with these acts if they are a run of a standard node that shows it.
    pub fn write_acts(
        &self,
        out: &mut impl Write,
        acts: &[NodeAct],
    ) -> Result<(), CertificateError> {
        match in_common(acts) {
            Some(acts) if !self.is_wrapped() => self.trace().write_node_acts(out, &acts),
            _ if self.check(acts)? != NodeVerdict::Yes => Err(CertificateError::Uncertified),
            _ => Ok(self.write_version_3(out, acts)?),
        }
    }

    fn write_version_3(&self, out: &mut impl Write, acts: &[NodeAct]) -> io::Result<()> {
        out.write_all(WRAPPED)?;
        for (pid, events) in self.trace().processes() {
            writeln!(out, "process {}", Text(pid))?;
            for (event, index) in events.iter().zip(0..) {
                write_event(out, event, self.is_answer((pid, index)))?;
            }
        }
        out.write_all(ACTS)?;
        acts.iter().try_for_each(|act| writeln!(out, "{}", Text(act)))
    }
}

impl Display for Text<&NodeAct> {
    fn fmt(&self, f: &mut Formatter<'_>) -> fmt::Result {
        match self.0 {
            NodeAct::Common(act) => write!(f, "{}", Text(act)),
            NodeAct::Answer(pid, place) => write!(f, "answer {} {place}", Text(*pid)),
        }
    }
}

/// Returns the acts of the text form that these are, unless a spawn ends among them.
pub fn in_common(acts: &[NodeAct]) -> Option<Vec<Act>> {
    let common = |act: &NodeAct| match *act {
        NodeAct::Common(act) => Some(act),
        NodeAct::Answer(..) => None,
    };
    acts.iter().map(common).collect()
}

/// Returns the numbers of the acts that are ends of spawns.
fn answer_numbers(text: &[u8]) -> Vec<u64> {
    let lines = text.split_inclusive(|&byte| byte == b'\n');
    let acts = lines.skip_while(|&line| line != ACTS).skip(1).zip(0..);
    acts.filter(|(line, _)| line.starts_with(ANSWER)).map(|(_, number)| number).collect()
}

/// Writes a line that is no event's as version 2 has it: the end of a spawn is a receive there.
pub(crate) fn put_plain(line: &[u8], text: &mut Vec<u8>) {
    let words = line.strip_prefix(ANSWER);
    let space = words.and_then(|words| words.iter().rposition(|&byte| byte == b' '));
    match words.zip(space) {
        Some((words, space)) => {
            let (pid, place) = words.split_at(space);
            text.extend([b"receive ", pid, b" place", place].concat());
        }
        None => text.extend_from_slice(line),
    }
}

fn write_event(out: &mut impl Write, event: &Event, is_answer: bool) -> io::Result<()> {
    let kind = match event.kind {
        Kind::Send => "send",
        Kind::Receive if is_answer => "answer",
        Kind::Receive => "'receive'",
        Kind::Print => "print",
    };
    let to = event.to.map_or_else(|| "[]".into(), |to| Text(to).to_string());
    let (label, from, value) = (event.label.0, Text(event.from), event.value);
    let (prev, this) = (signed(event.serial.prev), signed(event.serial.this));
    writeln!(out, "{{seq_trace,{label},{{{kind},{{{prev},{this}}},{from},{to},{value}}}}}")
}
