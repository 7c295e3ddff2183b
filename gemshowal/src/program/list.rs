//! The command `list`: events, each with its line, its name and its other end.

use crate::args::List;
use crate::names::{Line, Names};
use crate::object::kind_word;
use crate::{Ended, Status, Task};
use gemshowal::{Kind, Paired, Partner, Pid, Row};

pub(crate) fn run(args: &List, task: Task<'_>) -> Ended {
    let Task { json, input, out, notes } = task;
    let (trace, names) = input.read(notes)?;
    let rows = trace.list(&args.conditions.filter(&trace, &names)?)?;
    let is_listed = |row: &&Row| args.conditions.are_met(row, &names);
    let rows = || rows.iter().filter(is_listed);
    let paired = Paired::if_possible(trace.streams())?;
    if paired.is_none() && rows().next().is_some() {
        notes.say(
            "note: the trace can't be paired, so no partners are shown; gemshowal audit says why",
        );
    }
    let partner = |row: &Row| {
        let partner = |paired: &Paired<'_>| paired.partner((row.pid, row.index), row.event.kind);
        paired.as_ref().map_or(Partner::Nobody, partner)
    };
    if json {
        let put = |line: &mut Line<'_>, row: &Row| put_object(line, row, partner(row), &names);
        out.report_rows("listed", "events", rows().count(), rows(), put)?;
    } else {
        for row in rows() {
            out.put(|line| put_row(line, row, partner(row), &names))?;
        }
    }
    Ok(Status::Yes)
}

fn put_row(line: &mut Line<'_>, row: &Row, partner: Partner, names: &Names) {
    let event = &row.event;
    line.number(row.line).text(": ").event(names, (row.pid, row.index));
    line.text(match event.kind {
        Kind::Send => "  send     ",
        Kind::Receive => "  receive  ",
        Kind::Print => "  print    ",
    });
    line.label(names, event.label).text(" ").serial(event.serial).text(" ");
    line.brief(names, event.value);
    line.other_end(names, event);
    match partner {
        Partner::Receive(pid, index) => line.text(", received as ").event(names, (pid, index)),
        Partner::Send(pid, index) => line.text(", sent as ").event(names, (pid, index)),
        Partner::NoReceive => line.text(", no receive reported"),
        Partner::NoSend => line.text(", its send wasn't reported"),
        Partner::Nobody => line.text(""),
    };
    line.text("\n");
}

/// Appends an event as JSON: serde takes four times as long. Its other end is null if nobody
/// reported it, and left out of a print and if the trace can't be paired.
fn put_object(line: &mut Line<'_>, row: &Row, partner: Partner, names: &Names) {
    let event = &row.event;
    line.text("{\"line\":").json_number(row.line).text(",");
    put_place(line, (row.pid, row.index), names);
    line.text(",\"kind\":\"").text(kind_word(event.kind));
    line.text("\",\"label\":").number(event.label.0.into());
    if names.has_terms() {
        line.text(",\"term\":").string(&names.label(event.label));
    }
    line.text(",\"prev\":").json_number(event.serial.prev);
    line.text(",\"this\":").json_number(event.serial.this);
    line.text(",\"from\":\"").pid(event.from).text("\"");
    if let Some(to) = event.to {
        line.text(",\"to\":\"").pid(to).text("\"");
    }
    line.text(",\"value\":").json_number(event.value);
    if names.has_terms() {
        line.text(",\"message\":").string(&names.brief(event.value));
    }
    match partner.place() {
        Some(place) => {
            put_place(line.text(",\"partner\":{"), place, names);
            line.text("}}");
        }
        None if matches!(partner, Partner::Nobody) => drop(line.text("}")),
        None => drop(line.text(",\"partner\":null}")),
    }
}

fn put_place(line: &mut Line<'_>, place: (Pid, u64), names: &Names) {
    line.text("\"event\":");
    if names.has_terms() {
        line.string(&names.event(place));
    } else {
        line.text("\"").event(names, place).text("\"");
    }
    line.text(",\"pid\":\"").pid(place.0).text("\",\"index\":").number(place.1);
}
