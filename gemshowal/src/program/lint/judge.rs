//! The mistakes of a text, line by line. After a mistake a line is judged as if the intended text
//! stood above, so that no mistake is named twice.

use super::grammar::{read, Above, Scan, Sort, Wanted};
use super::mend::{can_only_end, mended_line, mends};
use super::remedy::{remedy_of, remedy_of_text};
use super::text::{lines, Kind, Line};
use gemshowal::{Pid, Text, LIMITS};
use serde::Serialize;
use std::collections::{HashMap, HashSet};
use std::fmt::{self, Display, Formatter};

/// The mistakes of a text: how many there are, and the first ones.
#[derive(Debug, Default, Serialize)]
pub(super) struct Findings<'a> {
    #[serde(rename = "mistakes")]
    pub(super) count: u64,
    pub(super) by_fix: u64,
    pub(super) named: Vec<Mistake<'a>>,
    /// The first mistake for which the reader refuses the text.
    #[serde(skip)]
    pub(super) first_refused: Option<Mistake<'a>>,
}

impl<'a> Findings<'a> {
    /// Finds the mistakes of a text, and names this many of them.
    pub(super) fn of(text: &'a [u8], most: usize) -> Findings<'a> {
        let mut judge = Judge { most, ..Judge::default() };
        let first = lines(text).next().unwrap_or(Line { number: 1, bytes: b"", is_ended: true });
        if let Some(remedy) = remedy_of_text(text) {
            judge.add(Mistake::new(first, 0, Wanted::Words(Above::Nothing.words()), remedy));
        } else {
            lines(text).for_each(|line| judge.take(line));
            judge.end(first);
        }
        let mut found = judge.found;
        found.named.sort_by_key(|mistake| (mistake.line.number, mistake.column));
        found.named.truncate(most);
        found
    }

    fn add(&mut self, mistake: Mistake<'a>, is_named: bool) {
        self.by_fix += u64::from(mistake.is_by_fix);
        self.count += 1;
        let first = self.first_refused.as_ref().map_or(u64::MAX, |first| first.line.number);
        if !mistake.is_read && mistake.line.number < first {
            self.first_refused = Some(mistake.clone());
        }
        self.named.extend(is_named.then_some(mistake));
    }
}

/// The state that the lines so far leave for the next one.
#[derive(Debug, Default)]
struct Judge<'a> {
    found: Findings<'a>,
    most: usize,
    above: Above,
    /// Tells whether the header lets pids of other nodes in, or that it doesn't was named.
    is_wide: bool,
    is_remote: bool,
    /// The last process line's pid, and that of the process above, if they could be read.
    last: Option<Pid>,
    current: Option<Pid>,
    listed: HashSet<Pid>,
    /// Tells whether the pid of some process line can't be read.
    has_unread: bool,
    /// The first places of the pids that have to be listed.
    named: HashMap<Pid, (Line<'a>, usize)>,
    events: u32,
    acts: u32,
}

impl<'a> Judge<'a> {
    fn take(&mut self, line: Line<'a>) {
        self.is_remote |= names_remote(line.bytes);
        let (scan, read) = read(line.bytes, self.above);
        if let Some(&(column, _)) =
            scan.pids.iter().find(|(_, pid)| pid.node() > 0 && !self.is_wide)
        {
            let remedy = "a bundle that names a pid of another node begins with seqtrace 2";
            let wanted = Wanted::Words("node 0 under seqtrace 1");
            self.add(Mistake::new(line, column + 1, wanted, remedy).by_fix(true));
            self.is_wide = true;
        }
        match read {
            Ok(sort) => self.take_sort(line, sort, &scan),
            Err(wanted) => self.refuse(line, &scan, wanted),
        }
    }

    /// Adds a mistake, unless it is certain that it isn't named, and counts it.
    fn add(&mut self, mistake: Mistake<'a>) {
        let is_named = self.found.named.len() < self.most;
        self.found.add(mistake, is_named);
    }

    /// Refuses a line that isn't allowed there. If the text breaks off within it, it stays as it
    /// is.
    fn refuse(&mut self, line: Line<'a>, scan: &Scan<'a>, wanted: Wanted) {
        let (above, at) = (self.above, scan.at);
        if !line.is_ended && wanted.begins_with(&line.bytes[at..]) {
            let remedy = "the text breaks off here: get the whole of it, or leave the line out";
            return self.add(Mistake::new(line, at, wanted, remedy));
        }
        let remedy = remedy_of(line.bytes, at, above, &wanted);
        let is_headless = above == Above::Nothing
            && !matches!(Kind::of(line.bytes), Kind::Header | Kind::Comment | Kind::Other);
        let is_by_fix = is_headless || mends(line.bytes, above);
        self.add(Mistake::new(line, at, wanted, remedy).by_fix(is_by_fix));
        self.pass(scan, Kind::of(line.bytes));
        if is_headless {
            self.take(line);
        } else {
            self.take_end(line);
        }
    }

    /// Goes on as if a line of this kind were right.
    fn pass(&mut self, scan: &Scan<'a>, kind: Kind) {
        match (kind, self.above) {
            (Kind::Comment | Kind::Other, _) => {}
            (Kind::Header, _) | (_, Above::Nothing) => {
                (self.above, self.is_wide, self.last) = (Above::Header, true, None);
            }
            (Kind::Process, _) => {
                let pid = scan.pids.first().map(|&(_, pid)| pid);
                self.listed.extend(pid);
                self.has_unread |= pid.is_none();
                (self.above, self.last, self.current) = (Above::Process, pid, pid);
            }
            (Kind::Event, Above::Header) => (self.above, self.current) = (Above::Process, None),
            (Kind::Acts | Kind::Act, _) => self.above = Above::Acts,
            (Kind::Event | Kind::OtherTrace, _) => {}
        }
    }

    fn take_sort(&mut self, line: Line<'a>, sort: Sort, scan: &Scan<'a>) {
        match (sort, scan.pids.as_slice()) {
            (Sort::Header, _) => {
                (self.above, self.is_wide) = (Above::Header, line.bytes.ends_with(b"2"));
            }
            (Sort::Process, &[pid, ..]) => self.take_process(line, pid),
            (Sort::Stamp, &[from, ..]) => self.take_event(line, from, scan),
            (Sort::Receive, &[.., to]) => self.take_event(line, to, scan),
            (Sort::Act, &[actor, ..]) => self.take_act(line, &[actor]),
            (Sort::SendAct, pids) => self.take_act(line, pids),
            (Sort::Acts, _) | (_, &[]) => self.above = Above::Acts,
        }
        self.take_end(line);
    }

    fn take_process(&mut self, line: Line<'a>, (column, pid): (usize, Pid)) {
        let is_new = self.listed.insert(pid);
        if let Some(last) = self.last.filter(|&last| pid <= last || !is_new) {
            let remedy = "list the processes by rising pid, each once";
            let wanted = Wanted::Phrase(format!("a pid above {}", Text(last)));
            self.add(Mistake::new(line, column, wanted, remedy));
        }
        (self.above, self.last, self.current) = (Above::Process, Some(pid), Some(pid));
        if is_new {
            self.limit(line, "process", self.listed.len() as u32, LIMITS.processes);
        }
    }

    fn take_event(&mut self, line: Line<'a>, (column, pid): (usize, Pid), scan: &Scan<'a>) {
        if let Some(current) = self.current.filter(|&current| current != pid) {
            let remedy = "an event stands below the process that reports it: a receive below its \
                          to, others below their from";
            let (current, pid) = (Text(current), Text(pid));
            let wanted = Wanted::Phrase(format!("an event of {current}, this is one of {pid}"));
            self.add(Mistake::new(line, column, wanted, remedy));
        }
        self.events = self.events.saturating_add(1);
        self.limit(line, "event", self.events, LIMITS.events);
        scan.pids.iter().for_each(|&place| self.name(line, place));
        if let &[(_, prev), (column, this)] = scan.counts.as_slice() {
            if prev >= this {
                let remedy = "no run of the machine reports it, since its second count isn't \
                              above its first; on a standard node a token that was put back, or \
                              set by hand, may give such a serial";
                let wanted = Wanted::Phrase(format!("a number above {prev}"));
                let mistake = Mistake::new(line, column, wanted, remedy);
                self.add(Mistake { is_read: true, ..mistake });
            }
        }
    }

    /// Judges an act, and notes that these pids have to be listed.
    fn take_act(&mut self, line: Line<'a>, pids: &[(usize, Pid)]) {
        self.acts = self.acts.saturating_add(1);
        self.limit(line, "act", self.acts, LIMITS.acts);
        pids.iter().for_each(|&place| self.name(line, place));
    }

    /// Judges whether a line of this noun is the first beyond the most that a text has.
    fn limit(&mut self, line: Line<'a>, noun: &'static str, count: u32, most: u32) {
        if count == most + 1 {
            let remedy = "cut the trace: a shorter time, or fewer processes";
            let wanted = Wanted::Phrase(format!("no {noun} more than {most}"));
            self.add(Mistake::new(line, 0, wanted, remedy));
        }
    }

    /// Notes that a line names a pid, which has to be listed somewhere.
    fn name(&mut self, line: Line<'a>, (column, pid): (usize, Pid)) {
        if self.current != Some(pid) {
            self.named.entry(pid).or_insert((line, column));
        }
    }

    /// Judges the end of the text if this line is its last and has no newline.
    fn take_end(&mut self, line: Line<'a>) {
        if line.is_ended || line.bytes.ends_with(b"\r") {
            return;
        }
        let mended = mended_line(line.bytes);
        let is_by_fix = mended.is_empty() || can_only_end(&mended);
        let remedy = match is_by_fix {
            true => "each line is ended by a newline, the last one too",
            false => "the text may break off here: see whether the line is whole, and end it",
        };
        let wanted = Wanted::Words("a newline at the end");
        self.add(Mistake::new(line, line.bytes.len(), wanted, remedy).by_fix(is_by_fix));
    }

    /// Names what only the whole text tells: pids without a process line, and a needless header.
    fn end(&mut self, first: Line<'a>) {
        if first.bytes == b"seqtrace 2" && !self.is_remote {
            let remedy = "no pid of a node other than 0 is named, so the header is seqtrace 1";
            self.found.add(Mistake::new(first, 9, Wanted::Words("1"), remedy).by_fix(true), true);
        }
        let unlisted = self.named.iter().filter(|(pid, _)| !self.listed.contains(pid));
        for (&pid, &(line, column)) in unlisted.filter(|_| !self.has_unread) {
            let remedy = "add its process line; or, if the text breaks off, get the whole of it";
            let words = format!("a pid with a process line, {} has none", Text(pid));
            self.found.add(Mistake::new(line, column, Wanted::Phrase(words), remedy), true);
        }
    }
}

/// Returns whether a line names a pid of a node other than 0. A comment is no part of a trace, and
/// a binary has no point there, but for a fraction.
pub(super) fn names_remote(line: &[u8]) -> bool {
    let begins_as_pid = |behind: &[u8]| {
        let number = behind.iter().take_while(|byte| byte.is_ascii_digit()).count();
        matches!(behind, [b'1'..=b'9', ..]) && matches!(behind[number..], [b'.', b'0'..=b'9', ..])
    };
    memchr::memchr_iter(b'<', line).any(|at| begins_as_pid(&line[at + 1..]))
        && Kind::of(line) != Kind::Comment
}

#[derive(Clone, Debug)]
pub(super) struct Mistake<'a> {
    pub(super) line: Line<'a>,
    /// The column, from 0.
    pub(super) column: usize,
    pub(super) wanted: Wanted,
    pub(super) remedy: &'static str,
    pub(super) is_by_fix: bool,
    /// Tells whether the reader takes the line, but no run reports it.
    pub(super) is_read: bool,
}

impl<'a> Mistake<'a> {
    /// Makes a mistake for which the reader refuses the line, and which a person has to mend.
    pub(super) fn new(line: Line<'a>, column: usize, wanted: Wanted, remedy: &'static str) -> Self {
        Mistake { line, column, wanted, remedy, is_by_fix: false, is_read: false }
    }

    pub(super) fn by_fix(self, is_by_fix: bool) -> Mistake<'a> {
        Mistake { is_by_fix, ..self }
    }

    pub(super) fn place(&self) -> String {
        let Mistake { line, column, wanted, .. } = self;
        format!("line {}, column {}: expected {wanted}", line.number, column + 1)
    }
}

/// The greatest number of a line's bytes that are shown, on one line of a wide terminal; of a
/// longer line those around the column.
const SHOWN: usize = 150;

/// The number of bytes in front of the column that are shown of a longer line.
const IN_FRONT: usize = 60;

impl Display for Mistake<'_> {
    /// Shows its place, the line with a mark below the column, and the remedy.
    fn fmt(&self, f: &mut Formatter<'_>) -> fmt::Result {
        writeln!(f, "{}", self.place())?;
        let line = self.line.bytes;
        if !line.is_empty() {
            let from = if line.len() > SHOWN { self.column.saturating_sub(IN_FRONT) } else { 0 };
            let to = line.len().min(from + SHOWN);
            let (dots, more) =
                (if from > 0 { ".. " } else { "" }, if to < line.len() { " .." } else { "" });
            let front = format!("  {dots}{}", shown(&line[from..self.column]));
            let (rest, width) = (shown(&line[self.column..to]), front.len());
            writeln!(f, "{front}{rest}{more}\n{:width$}^", "")?;
        }
        writeln!(f, "{}", self.remedy)
    }
}

/// Shows each byte: one that can't be seen, or isn't ASCII, as `\t` or `\xNN`.
fn shown(bytes: &[u8]) -> String {
    let shown = |byte: &u8| match byte {
        b' '..=b'~' => char::from(*byte).to_string(),
        b'\t' => "\\t".into(),
        _ => format!("\\x{byte:02x}"),
    };
    bytes.iter().map(shown).collect()
}
