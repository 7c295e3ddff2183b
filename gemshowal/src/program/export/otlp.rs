//! Spans for OpenTelemetry, as a line of OTLP in its JSON form, which a collector's file receiver
//! takes.
//!
//! A label is a trace. A service is a registered process, or a node with its other processes.

use super::nothing;
use super::scene::{Place, Scene};
use super::span::{About, Span, Spans};
use super::work as kind;
use crate::causes::Grade;
use crate::names::Line;
use crate::output::{Notes, Output};
use crate::view::short;
use crate::words::{self, PREMISES};
use crate::{Ended, Status};
use gemshowal::{Event, Item, Kind, Label, Partner, Pid, Text};
use std::collections::BTreeMap;
use std::io::{self, Write};

pub(super) fn write(scene: &Scene<'_>, name: &str, out: &mut Output, notes: &mut Notes) -> Ended {
    let no = |words: &str, notes| Ok(nothing(notes, format_args!("no: {name}: {words}")));
    let begin = match scene.names.times().map(|times| times.begin()) {
        None => return no("no event has a time, which spans need; trace with --times", notes),
        Some(None) => {
            return no("the events came without the clock of their node, which spans need", notes)
        }
        Some(Some(begin)) => begin,
    };
    let spans = Spans::of(scene)?;
    if spans.all.is_empty() {
        return no("no event has a time, which spans need", notes);
    }
    let writer = Writer { spans: &spans, begin };
    out.write_all(b"{\"resourceSpans\":[")?;
    for (number, (service, of)) in writer.services().iter().enumerate() {
        out.write_all(if number == 0 { &[] } else { b"," })?;
        writer.write_service(out, service, of)?;
    }
    out.write_all(b"]}\n")?;
    Ok(Status::Yes)
}

struct Writer<'a> {
    spans: &'a Spans<'a>,
    /// The time of the first event, since 1970.
    begin: i64,
}

impl Writer<'_> {
    fn services(&self) -> BTreeMap<String, Vec<u32>> {
        let mut of_pid = BTreeMap::<Pid, Vec<u32>>::new();
        for (span, number) in self.spans.all.iter().zip(0..) {
            of_pid.entry(span.place.0).or_default().push(number);
        }
        let mut services = BTreeMap::<String, Vec<u32>>::new();
        for (pid, numbers) in of_pid {
            services.entry(service(self.spans.scene, pid)).or_default().extend(numbers);
        }
        services
    }

    fn write_service(&self, out: &mut Output, name: &str, of: &[u32]) -> io::Result<()> {
        out.put(|line| {
            line.text("{\"resource\":{\"attributes\":[");
            put_attribute(line, "", "service.name", name);
            line.text("]},\"scopeSpans\":[{\"scope\":{\"name\":\"gemshowal\"},\"spans\":[");
        })?;
        let mut comma = "";
        for &number in of {
            let span = self.spans.get(number);
            let event = span.and_then(|span| self.spans.scene.event(span.place));
            if let Some((span, event)) = span.zip(event) {
                out.put(|line| self.put_span(line.text(comma), number, span, event))?;
                comma = ",";
            }
        }
        out.write_all(b"]}]}")
    }

    fn put_span(&self, line: &mut Line<'_>, number: u32, span: &Span, event: &Event) {
        let parent = span.parent.and_then(|parent| self.spans.get(parent));
        line.text("{");
        self.put_ids(line, span);
        if let Some(parent) = parent {
            line.text(",\"parentSpanId\":\"").text(&self.span_id(parent)).text("\"");
        }
        line.text(",\"name\":").string(&self.name(span, event)).text(",\"kind\":");
        line.number(span.about as u64);
        line.text(",\"startTimeUnixNano\":\"").number(self.time(span.start));
        line.text("\",\"endTimeUnixNano\":\"").number(self.time(span.end));
        line.text("\",\"attributes\":[");
        self.put_attributes(line, span, event);
        self.put_prints(line, number);
        let other = self.spans.of_other_label(span.place).filter(|_| parent.is_some());
        let links = [span.follows, other].into_iter().flatten();
        let mut before = "],\"links\":[{";
        for link in links.filter_map(|other| self.spans.get(other)) {
            self.put_ids(line.text(before), link);
            before = "},{";
        }
        line.text(if before == "},{" { "}]}" } else { "]}" });
    }

    fn put_ids(&self, line: &mut Line<'_>, span: &Span) {
        line.text("\"traceId\":\"").text(&self.trace_id(span.label));
        line.text("\",\"spanId\":\"").text(&self.span_id(span)).text("\"");
    }

    fn name(&self, span: &Span, event: &Event) -> String {
        let scene = self.spans.scene;
        match span.about {
            About::Label => match scene.names.has_terms() {
                true => format!("trace {}", kind::sort(&scene.names.label(event.label))),
                false => "trace".into(),
            },
            About::Message | About::Call => kind::sent(scene, event.value),
            About::Work | About::Service => kind::with_sort(scene, "handle", event.value),
        }
    }

    fn put_attributes(&self, line: &mut Line<'_>, span: &Span, event: &Event) {
        let (scene, place) = (self.spans.scene, span.place);
        put_attribute(line, "", "erlang.label", &scene.names.label(event.label));
        if span.about == About::Label {
            for (premise, number) in PREMISES.into_iter().zip(1..) {
                put_attribute(line, ",", &format!("seqaudit.premise_{number}"), premise);
            }
            return;
        }
        put_attribute(line, ",", "erlang.message", &short(&scene.names.value(event.value)));
        put_attribute(line, ",", "erlang.from", &scene.names.process(event.from));
        if let Some(to) = event.to {
            put_attribute(line, ",", "erlang.to", &scene.names.process(to));
        }
        put_attribute(line, ",", "erlang.pid", &Text(place.0).to_string());
        put_attribute(line, ",", "seqaudit.event", &scene.names.event(place));
        match scene.partner(place, event) {
            Partner::NoSend => put_flag(line, "seqaudit.send_reported", false),
            Partner::NoReceive => put_flag(line, "seqaudit.receive_reported", false),
            _ => {}
        }
        if event.kind == Kind::Send {
            put_cause(line, scene, place);
        }
        if span.about == About::Call {
            let reply = self.spans.calls.replies.get(&place).copied();
            put_flag(line, "seqaudit.reply_reported", reply.is_some());
            if let Some(reply) = reply {
                put_attribute(line, ",", "seqaudit.reply", &scene.names.event(reply));
            }
        }
    }

    /// Appends the prints that belong to a span, after its attributes.
    fn put_prints(&self, line: &mut Line<'_>, number: u32) {
        let (scene, prints) = (self.spans.scene, &self.spans.prints);
        let first = prints.partition_point(|&(span, _)| span < number);
        let of_span = prints.iter().skip(first).take_while(|&&(span, _)| span == number);
        let mut before = "],\"events\":[{";
        for &(_, place) in of_span {
            let Some((event, time)) = scene.event(place).zip(scene.time(place)) else { continue };
            line.text(before).text("\"timeUnixNano\":\"").number(self.time(time));
            line.text("\",\"name\":").string(&kind::with_sort(scene, "print", event.value));
            line.text(",\"attributes\":[");
            put_attribute(line, "", "erlang.message", &short(&scene.names.value(event.value)));
            put_attribute(line, ",", "seqaudit.event", &scene.names.event(place));
            put_cause(line, scene, place);
            before = "]},{";
        }
        line.text(if before == "]},{" { "]}" } else { "" });
    }

    fn time(&self, after_first: i64) -> u64 {
        self.begin.saturating_add(after_first).max(0) as u64
    }

    fn trace_id(&self, label: Label) -> String {
        let begin = self.begin as u64;
        format!("{:016x}{:016x}", mixed(begin) | 1, mixed(begin ^ u64::from(label.0)))
    }

    /// Makes a number that no other span of the trace has, from what it is named after.
    fn span_id(&self, span: &Span) -> String {
        let (pid, index) = span.place;
        let kind = u64::from(span.about == About::Label);
        let place = u64::from(pid.node()) << 48 | u64::from(pid.number()) << 32 | index << 1 | kind;
        format!("{:016x}", mixed(place.wrapping_add(self.begin as u64)).max(1))
    }
}

/// Mixes a number by SplitMix64: no two become equal.
fn mixed(number: u64) -> u64 {
    let mut mixed = number.wrapping_add(0x9E37_79B9_7F4A_7C15);
    mixed = (mixed ^ (mixed >> 30)).wrapping_mul(0xBF58_476D_1CE4_E5B9);
    mixed = (mixed ^ (mixed >> 27)).wrapping_mul(0x94D0_49BB_1331_11EB);
    mixed ^ (mixed >> 31)
}

/// Returns the service of a process: its registered name, or its node.
fn service(scene: &Scene<'_>, pid: Pid) -> String {
    let registered = scene.names.word_about(pid, ", registered as ");
    registered.map_or_else(|| scene.node(pid), str::to_owned)
}

fn put_attribute(line: &mut Line<'_>, before: &str, key: &str, value: &str) {
    line.text(before).text("{\"key\":\"").text(key).text("\",\"value\":{\"stringValue\":");
    line.string(value).text("}}");
}

fn put_flag(line: &mut Line<'_>, key: &str, value: bool) {
    line.text(",{\"key\":\"").text(key).text("\",\"value\":{\"boolValue\":");
    line.text(if value { "true}}" } else { "false}}" });
}

/// Appends what an event follows, and the premises of that.
fn put_cause(line: &mut Line<'_>, scene: &Scene<'_>, (pid, index): Place) {
    let link = scene.link((pid, index));
    let follows = match link.after() {
        Some(item @ Item::Reported(..)) => scene.causes.name(item),
        _ => words::follows(scene.causes, Item::Reported(pid, index), "it", link),
    };
    put_attribute(line, ",", "seqaudit.follows", &follows);
    if let Grade::Under(_) = link.grade {
        put_attribute(line, ",", "seqaudit.premises", &link.grade.list());
    }
}
