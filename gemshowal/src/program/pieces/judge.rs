//! `judge`: the first reason in each piece, and what the verdict needs beside it.

use super::reader::read_event;
use super::record::{Counts, Line, Place, Rest, COUNTS};
use super::walk_sorted;
use crate::reason::Against;
use crate::Failure;
use gemshowal::{Event, Kind, Pid, PlacedReason, Receipt, Text};
use std::io::{self, BufRead, Write};

/// The lines that come before those of the next process.
struct Piece {
    pid: Pid,
    /// The parts that list the process, in order.
    parts: Vec<u16>,
    events: Vec<Event>,
    /// The places of the events.
    places: Vec<Place>,
    receipts: Vec<Receipt>,
}

/// The counts of all pieces.
#[derive(Default)]
struct Totals {
    lines: Counts,
    processes: u64,
    unreported: u64,
}

/// Reads sorted lines of `scatter`, and writes those for `gather`.
pub(super) fn judge(
    name: &str,
    input: impl BufRead,
    out: &mut impl Write,
    mut progress: impl FnMut(u64),
) -> Result<(), Failure> {
    let mut totals = Totals::default();
    let mut piece: Option<Piece> = None;
    walk_sorted(name, input, "scatter", |line, before| {
        if let Some(counts) = line.strip_prefix(COUNTS) {
            let Some(counts) = Counts::read(Rest(counts)) else { return Ok(None) };
            let line = counts.append_to(Line::default().starting(b"3S")).write(out);
            return Ok(line.map(Some)?);
        }
        let mut rest = Rest(line);
        let Some(pid) = rest.pid() else { return Ok(None) };
        if piece.as_ref().is_some_and(|piece| piece.pid != pid) {
            finish(piece.take(), &mut totals, out)?;
            progress(totals.lines.events());
        }
        let kind = piece.get_or_insert_with(|| Piece::new(pid)).take(rest, line == before);
        Ok(kind.map(|kind| totals.lines.count(kind)))
    })?;
    finish(piece, &mut totals, out)?;
    totals.lines.append_to(Line::default().starting(b"3T")).write(out)?;
    let mut last = Line::default();
    last.starting(b"4").number(totals.processes).number(totals.unreported).write(out)?;
    Ok(out.flush()?)
}

fn finish(piece: Option<Piece>, totals: &mut Totals, out: &mut impl Write) -> io::Result<()> {
    let Some(piece) = piece else { return Ok(()) };
    if piece.parts.is_empty() {
        return Line::default().starting(b"0").pid(piece.pid).write(out);
    }
    totals.processes += 1;
    match gemshowal::judge_piece(piece.pid, &piece.events, &piece.receipts) {
        Some(found) => piece.write_reason(found, out)?,
        None => totals.unreported += piece.unreported(),
    }
    piece.write_parts(out)
}

impl Piece {
    fn new(pid: Pid) -> Piece {
        Piece { pid, parts: vec![], events: vec![], places: vec![], receipts: vec![] }
    }

    /// Takes the next line, and returns its kind; none if it isn't one of `scatter`, sorted.
    fn take(&mut self, mut rest: Rest<'_>, is_repeated: bool) -> Option<u8> {
        rest.skip(b'\t')?;
        let kind = rest.byte()?;
        if is_repeated && kind != b'3' {
            return None;
        }
        match kind {
            b'0' => self.list(rest)?,
            b'1' => self.report(rest)?,
            b'2' => self.receive(rest)?,
            b'3' => rest.end()?,
            _ => return None,
        }
        Some(kind)
    }

    fn list(&mut self, mut rest: Rest<'_>) -> Option<()> {
        let place = Place(rest.number()?);
        rest.end()?;
        self.parts.push(place.part());
        (place.index() == 0).then_some(())
    }

    fn report(&mut self, mut rest: Rest<'_>) -> Option<()> {
        let place = Place(rest.number()?);
        rest.skip(b' ')?;
        let event = read_event(rest.0)?;
        let next = match self.places.last() {
            Some(last) if last.part() == place.part() => Place(last.0 + 1),
            _ => Place::new(place.part(), 0),
        };
        let is_listed = self.parts.binary_search(&place.part()).is_ok();
        self.events.push(event);
        self.places.push(place);
        (is_listed && place == next && event.is_own(self.pid)).then_some(())
    }

    fn receive(&mut self, mut rest: Rest<'_>) -> Option<()> {
        let count = rest.number()?;
        rest.skip(b' ')?;
        let pid = rest.pid()?;
        rest.skip(b' ')?;
        let place = Place(rest.number()?);
        rest.skip(b' ')?;
        let event = read_event(rest.0)?;
        let own = || self.places.binary_search(&place).ok().map(|index| index as u64);
        let index = if pid == self.pid { own()? } else { place.0 };
        self.receipts.push(Receipt { pid, index, event });
        let is_receipt = event.kind == Kind::Receive && event.to == Some(pid);
        (is_receipt && event.from == self.pid && event.serial.this == count).then_some(())
    }

    /// Returns the place of an event: its index, if it isn't this process's, is one already.
    fn place(&self, pid: Pid, index: u64) -> Place {
        let own = self.places.get(index as usize).filter(|_| pid == self.pid);
        own.copied().unwrap_or(Place(index))
    }

    fn event(&self, pid: Pid, index: u64) -> Option<&Event> {
        if pid == self.pid {
            return self.events.get(index as usize);
        }
        let is_there = |receipt: &&Receipt| (receipt.pid, receipt.index) == (pid, index);
        self.receipts.iter().find(is_there).map(|receipt| &receipt.event)
    }

    /// Returns how many of its messages were received, and not reported as sent. The counts rise on
    /// both sides, since no reason holds.
    fn unreported(&self) -> u64 {
        let mut stamps = self.events.iter().filter(|event| event.kind != Kind::Receive).peekable();
        let is_hidden = |receipt: &&Receipt| {
            let count = receipt.event.serial.this;
            while stamps.next_if(|stamp| stamp.serial.this < count).is_some() {}
            stamps.peek().is_none_or(|stamp| stamp.serial.this != count)
        };
        self.receipts.iter().filter(is_hidden).count() as u64
    }

    fn write_reason(&self, found: PlacedReason, out: &mut impl Write) -> io::Result<()> {
        let against = Against::by_complete(found.pid, found.index, found.never);
        let mut line = Line::default();
        line.starting(b"1").bytes(against.word().as_bytes());
        let places = [Some((found.pid, found.index)), against.other()];
        for (pid, index) in places.into_iter().flatten() {
            let event = self.event(pid, index).map(|event| Text(event).to_string());
            line.byte(b'\t').pid(pid).number(self.place(pid, index).0).byte(b'\t');
            line.bytes(event.unwrap_or_default().as_bytes());
        }
        line.write(out)
    }

    /// Writes how many events of the process are in each part, if it is in others than the first.
    fn write_parts(&self, out: &mut impl Write) -> io::Result<()> {
        if self.parts.iter().all(|&part| part == 0) {
            return Ok(());
        }
        let up_to = |part: u16| self.places.partition_point(|place| place.part() <= part) as u64;
        let mut before = 0;
        self.parts.iter().try_for_each(|&part| {
            let count = up_to(part) - before;
            before += count;
            let mut line = Line::default();
            line.starting(b"2").pid(self.pid).number(Place::new(part, count).0).write(out)
        })
    }
}
