//! A chart of one label's messages.

use crate::bundle::{Event, Kind, Pid, Place, Streams};
use crate::pairing::{At, HIDDEN, Item, Pairs, order};
use crate::writer::{Writer, put_number, put_pid, put_serial};
use std::collections::HashMap;
use std::io::{self, Write};

/// For each stamp of the label the last receive before it that has its prev.
struct Causes<'a> {
    events: &'a [Vec<Event>],
    receives: Vec<HashMap<u64, Vec<u32>>>,
}

impl Causes<'_> {
    fn new(events: &[Vec<Event>]) -> Causes<'_> {
        Causes { events, receives: vec![HashMap::new(); events.len()] }
    }

    fn of(&mut self, at: At, prev: u64) -> Option<u32> {
        let stream = &self.events[at.process as usize];
        // Most follow what was received just before.
        for index in (0..at.index).rev().take(8) {
            let event = &stream[index as usize];
            if event.kind == Kind::Receive && event.this == prev {
                return Some(index);
            }
        }
        if at.index <= 8 {
            return None;
        }
        let known = &mut self.receives[at.process as usize];
        if known.is_empty() {
            for (index, event) in stream.iter().enumerate().filter(|(_, event)| event.kind == Kind::Receive) {
                known.entry(event.this).or_default().push(index as u32);
            }
        }
        let indexes = known.get(&prev)?;
        indexes[..indexes.partition_point(|&index| index < at.index)].last().copied()
    }
}

fn put_after(text: &mut Vec<u8>, pid: Pid, index: u32) {
    text.extend_from_slice(b"after ");
    put_pid(text, pid);
    text.push(b' ');
    put_number(text, u64::from(index));
}

fn put_cause(text: &mut Vec<u8>, streams: &Streams, pairs: &Pairs, causes: &mut Causes, item: &Item, event: &Event) {
    let At { process, index } = item.at;
    if item.is_hidden {
        text.extend_from_slice(b"unseen");
        return;
    }
    if event.kind == Kind::Receive {
        let sent = pairs.sources[process as usize][index as usize];
        match sent {
            HIDDEN => text.extend_from_slice(b"after hidden"),
            _ => put_after(text, streams.pids.listed[sent.process as usize], sent.index),
        }
        return;
    }
    match causes.of(item.at, event.prev) {
        Some(index) => put_after(text, streams.pids.listed[process as usize], index),
        None => text.extend_from_slice(b"start"),
    }
}

fn mark(item: &Item, event: &Event) -> u8 {
    match event.kind {
        _ if item.is_hidden => b'H',
        Kind::Send => b'S',
        Kind::Receive => b'R',
        Kind::Print => b'P',
    }
}

/// The lanes' numbers by the process's place, and their pids.
fn lanes(streams: &Streams, rows: &[(Item, Event)]) -> (Vec<usize>, Vec<Pid>) {
    let mut numbers = vec![usize::MAX; streams.pids.listed.len()];
    for (_, event) in rows {
        let ends = [Some(event.from), (event.kind != Kind::Print).then_some(event.to)];
        for place in ends.into_iter().flatten().filter_map(|pid| streams.pids.place(pid)) {
            numbers[place as usize] = 0;
        }
    }
    let is_lane = |place: &Place| numbers[*place as usize] == 0;
    let places: Vec<Place> = (0..numbers.len() as Place).filter(is_lane).collect();
    for (lane, &place) in places.iter().enumerate() {
        numbers[place as usize] = lane;
    }
    (numbers, places.iter().map(|&place| streams.pids.listed[place as usize]).collect())
}

/// Writes the chart. False: nothing has the label.
pub fn chart<W: Write>(streams: &Streams, pairs: &Pairs, label: u32, out: &mut Writer<W>) -> io::Result<bool> {
    let items = order(streams, pairs);
    let rows = items.iter().map(|item| (*item, item.event(&streams.events)));
    let rows: Vec<(Item, Event)> = rows.filter(|(_, event)| event.label == label).collect();
    if rows.is_empty() {
        return Ok(false);
    }
    let (numbers, lanes) = lanes(streams, &rows);
    out.line(|text| {
        text.extend_from_slice(b"label ");
        put_number(text, u64::from(label));
    })?;
    for (lane, &pid) in lanes.iter().enumerate() {
        out.line(|text| {
            text.extend_from_slice(b"lane ");
            put_number(text, lane as u64 + 1);
            text.push(b' ');
            put_pid(text, pid);
        })?;
    }
    let blank = b"   |".repeat(lanes.len());
    let mut causes = Causes::new(&streams.events);
    let column = |pid: Pid| 4 * numbers[streams.pids.place(pid).unwrap_or(0) as usize] + 3;
    for (item, event) in &rows {
        out.line(|text| {
            let row = text.len();
            text.extend_from_slice(&blank);
            let (actor, other) = match event.kind {
                Kind::Receive => (event.to, Some(event.from)),
                Kind::Send => (event.from, Some(event.to)),
                Kind::Print => (event.from, None),
            };
            if let Some(other) = other {
                text[row + column(other)] = b'.';
            }
            text[row + column(actor)] = mark(item, event);
            text.extend_from_slice(match event.kind {
                _ if item.is_hidden => b"  hidden   ",
                Kind::Send => b"  send     ",
                Kind::Receive => b"  receive  ",
                Kind::Print => b"  print    ",
            });
            put_serial(text, event.prev, event.this);
            text.push(b' ');
            put_number(text, event.value);
            text.push(b' ');
            put_cause(text, streams, pairs, &mut causes, item, event);
        })?;
    }
    Ok(true)
}
