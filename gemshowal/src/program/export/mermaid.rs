//! A sequence diagram in Mermaid's language: a participant for each process, and an arrow for each
//! message, in the order of all events.
//!
//! An arrow is at the place of its receive. If the sender did something else in between, the send
//! has a note at its own place, and the arrow is dotted. So of each process the lines of the
//! diagram tell its events in their order.

use super::scene::{Place, Scene};
use crate::output::Output;
use crate::Failure;
use gemshowal::{Event, Kind, Partner, Pid};
use std::collections::{HashMap, HashSet};
use std::io::{self, Write};

pub(super) fn write(scene: &Scene<'_>, out: &mut Output) -> Result<(), Failure> {
    let order = scene.in_order()?;
    let overtaken = overtaken(scene, &order);
    writeln!(out, "sequenceDiagram")?;
    for (&pid, number) in scene.lanes.iter().zip(1..) {
        writeln!(out, "    participant P{number} as {}", called(scene, pid))?;
    }
    if order.iter().any(|&(place, event)| scene.is_unsent(place, event)) {
        writeln!(out, "    participant U as not reported")?;
    }
    for (place, event) in order {
        write_event(scene, &overtaken, out, (place, event))?;
    }
    Ok(())
}

/// Finds the sends after which their process did something else before the receive.
fn overtaken(scene: &Scene<'_>, order: &[(Place, &Event)]) -> HashSet<Place> {
    let mut last = HashMap::new();
    let mut overtaken = HashSet::new();
    for &(place, event) in order {
        if let Partner::Send(from, sent) = scene.partner(place, event) {
            if last.get(&from) != Some(&sent) {
                overtaken.insert((from, sent));
            }
        }
        last.insert(place.0, place.1);
    }
    overtaken
}

/// Writes the line of an event. A send whose arrow is in its place has none.
fn write_event(
    scene: &Scene<'_>,
    overtaken: &HashSet<Place>,
    out: &mut Output,
    (place, event): (Place, &Event),
) -> io::Result<()> {
    let content = plain(&scene.content(event));
    let from = scene.lane(event.from);
    let to = event.to.map_or(0, |to| scene.lane(to));
    match scene.partner(place, event) {
        Partner::Receive(..) if !overtaken.contains(&place) => Ok(()),
        Partner::Nobody | Partner::Receive(..) if event.kind == Kind::Print => {
            writeln!(out, "    Note over P{from}: print {content}")
        }
        Partner::Nobody | Partner::Receive(..) => {
            let to = event.to.map(|to| called(scene, to)).unwrap_or_default();
            writeln!(out, "    Note over P{from}: sends {content} to {to}")
        }
        Partner::NoReceive => {
            writeln!(out, "    P{from}-xP{to}: {content} (no receive reported)")
        }
        Partner::NoSend => {
            let from = called(scene, event.from);
            writeln!(out, "    U->>P{to}: {content} from {from}")
        }
        Partner::Send(pid, sent) if overtaken.contains(&(pid, sent)) => {
            writeln!(out, "    P{from}-->>P{to}: {content} (sent above)")
        }
        Partner::Send(..) => writeln!(out, "    P{from}->>P{to}: {content}"),
    }
}

/// Returns the name of a process, or its pid without the angle brackets.
fn called(scene: &Scene<'_>, pid: Pid) -> String {
    let name = scene.names.process(pid);
    let bare = name.strip_prefix('<').and_then(|name| name.strip_suffix('>'));
    plain(bare.unwrap_or(&name))
}

/// Writes the characters that end a text or a line there by their numbers.
fn plain(text: &str) -> String {
    text.chars()
        .map(|c| match c {
            '#' | ';' | ':' | '<' | '>' | '&' | '"' | '%' | '\0'..=' ' if c != ' ' => {
                format!("#{};", u32::from(c))
            }
            c => c.to_string(),
        })
        .collect()
}
