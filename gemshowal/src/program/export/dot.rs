//! A graph of the events in the language of Graphviz: a box for each process with its events, an
//! edge from each event to the next one of its process, and one from each send to its receive. With
//! `newrank` an effect is below its cause, whatever box it is in.

use super::scene::{Place, Scene};
use crate::object::kind_word;
use crate::output::Output;
use gemshowal::{Event, Partner, Pid};
use std::io::{self, Write};

const MESSAGE: &str = " [color=blue]";
const OPEN_MESSAGE: &str = " [color=blue, style=dashed]";

pub(super) fn write(scene: &Scene<'_>, out: &mut Output) -> io::Result<()> {
    writeln!(out, "digraph trace {{\n    newrank=true;\n    node [shape=box];")?;
    for &pid in &scene.lanes {
        write_process(scene, out, pid)?;
    }
    for (place, event) in scene.events() {
        write_message(scene, out, place, event)?;
    }
    writeln!(out, "}}")
}

fn write_process(scene: &Scene<'_>, out: &mut Output, pid: Pid) -> io::Result<()> {
    let events = scene.trace.streams().events(pid);
    let (lane, name) = (scene.lane(pid), quoted(&scene.names.process(pid)));
    writeln!(out, "    subgraph cluster_{lane} {{\n        label=\"{name}\";")?;
    let mut before: Option<u64> = None;
    for (index, event) in (0..).zip(events).filter(|(_, event)| scene.has(event)) {
        let (kind, content) = (kind_word(event.kind), quoted(&scene.content(event)));
        let id = format!("e{lane}_{index}");
        writeln!(out, "        {id} [label=\"{kind} {content}\"];")?;
        if let Some(before) = before.replace(index) {
            writeln!(out, "        e{lane}_{before} -> {id};")?;
        }
    }
    writeln!(out, "    }}")
}

/// Writes the edge of a received message, or of a sent one whose receive nobody reported.
fn write_message(scene: &Scene<'_>, out: &mut Output, at: Place, event: &Event) -> io::Result<()> {
    let (own, index) = (scene.lane(at.0), at.1);
    let (node, open) = (format!("e{own}_{index}"), format!("u{own}_{index}"));
    match scene.partner(at, event) {
        Partner::Nobody | Partner::Receive(..) => Ok(()),
        Partner::Send(from, sent) => {
            writeln!(out, "    e{}_{sent} -> {node}{MESSAGE};", scene.lane(from))
        }
        Partner::NoReceive => writeln!(
            out,
            "    {open} [label=\"no receive reported\", style=dashed];\n    {node} -> \
             {open}{OPEN_MESSAGE};"
        ),
        Partner::NoSend => writeln!(
            out,
            "    {open} [label=\"send not reported\", style=dashed];\n    {open} -> \
             {node}{OPEN_MESSAGE};"
        ),
    }
}

fn quoted(text: &str) -> String {
    text.replace('\\', "\\\\").replace('"', "\\\"")
}
