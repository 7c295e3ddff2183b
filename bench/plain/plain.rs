//! The commands of `seqaudit`, in plain Rust: `plain check | replay | audit | chart --label N | drive`.
//!
//! It is written from the rules and tuned, to be timed with the program: it proves nothing, has no
//! limits, and writes the same bytes for bundles that the program takes, but for `drive`: of the same acts it may write
//! another run. A text that is no bundle gets `fault line N` on standard error.

mod audit;
mod bundle;
mod chart;
mod drive;
mod machine;
mod pairing;
mod writer;

use audit::{Answer, Checker, Verdict};
use bundle::{Act, Component, Cursor, Deed, Fault, Streams, Want, line_of};
use machine::World;
use pairing::{At, Unfit};
use std::io::{self, Read, StdoutLock, Write};
use std::process::ExitCode;
use writer::{Writer, put_event, put_number, put_pid};

type Out = Writer<StdoutLock<'static>>;

enum Failure {
    Line(usize),
    Fault(&'static str),
    Device,
}

impl From<io::Error> for Failure {
    fn from(_: io::Error) -> Failure {
        Failure::Device
    }
}

impl From<Fault> for Failure {
    fn from(fault: Fault) -> Failure {
        Failure::Line(fault.line)
    }
}

/// Calls the closure with each act of the text and its line, without the newline.
fn for_each_act<'a>(bytes: &'a [u8], streams: &Streams, mut take: impl FnMut(&Act, &'a [u8])) -> Result<(), Failure> {
    let acts = streams.acts.clone().ok_or(Failure::Fault("no acts"))?;
    let mut cursor = Cursor::new(bytes, acts.start);
    while cursor.at < acts.end {
        let begin = cursor.at;
        let act = cursor.act(&streams.pids).ok_or_else(|| line_of(bytes, begin))?;
        take(&act, &bytes[begin..cursor.at - 1]);
    }
    Ok(())
}

fn put_flag(text: &mut Vec<u8>, is_on: bool) {
    text.extend_from_slice(if is_on { b" true" } else { b" false" });
}

/// Only the acts that audits make.
fn put_act(text: &mut Vec<u8>, streams: &Streams, act: &Act) {
    let pid = |text: &mut Vec<u8>, word: &[u8]| {
        text.extend_from_slice(word);
        put_pid(text, streams.pids.listed[act.actor as usize]);
    };
    match act.deed {
        Deed::Send(to, value) => {
            pid(text, b"send ");
            text.push(b' ');
            put_pid(text, streams.pids.listed[to as usize]);
            text.push(b' ');
            put_number(text, value);
        }
        Deed::Receive(Want::Place(place)) => {
            pid(text, b"receive ");
            text.extend_from_slice(b" place ");
            put_number(text, place);
        }
        Deed::Print(value) => {
            pid(text, b"print ");
            text.push(b' ');
            put_number(text, value);
        }
        Deed::Set(Component::Label(label)) => {
            pid(text, b"set ");
            text.extend_from_slice(b" label ");
            put_number(text, u64::from(label));
        }
        Deed::Clear => pid(text, b"clear "),
        Deed::Restore(token) => {
            pid(text, b"restore ");
            text.push(b' ');
            put_number(text, u64::from(token.label));
            put_flag(text, token.flags.send);
            put_flag(text, token.flags.receive);
            put_flag(text, token.flags.print);
            text.extend_from_slice(b" 0 0 ");
            put_pid(text, token.from);
        }
        Deed::Tracer(is_on) => {
            pid(text, b"tracer ");
            put_flag(text, is_on);
        }
        _ => {}
    }
}

fn put_verdict(text: &mut Vec<u8>, verdict: &Verdict) {
    let (word, number) = match verdict {
        Verdict::Yes => return text.extend_from_slice(b"yes"),
        Verdict::Stuck(number) => (&b"stuck "[..], *number),
        Verdict::Differs(number) => (&b"differs "[..], *number),
        Verdict::Left(pid) => {
            text.extend_from_slice(b"left ");
            return put_pid(text, *pid);
        }
    };
    text.extend_from_slice(word);
    put_number(text, number as u64);
}

fn put_place(text: &mut Vec<u8>, streams: &Streams, at: At) {
    put_pid(text, streams.pids.listed[at.process as usize]);
    text.push(b' ');
    put_number(text, u64::from(at.index));
}

fn check(bytes: &[u8], out: &mut Out) -> Result<u8, Failure> {
    let streams = bundle::read(bytes)?;
    let mut checker = Checker::new(&streams);
    for_each_act(bytes, &streams, |act, _| checker.follow(act))?;
    let verdict = checker.verdict();
    if !matches!(verdict, Verdict::Yes) {
        out.line(|text| {
            text.extend_from_slice(b"no ");
            put_verdict(text, &verdict);
        })?;
        return Ok(1);
    }
    out.line(|text| text.extend_from_slice(b"yes"))?;
    for &(receive, send) in &checker.pairs {
        out.line(|text| {
            text.extend_from_slice(b"pair ");
            put_number(text, u64::from(receive));
            text.push(b' ');
            put_number(text, u64::from(send));
        })?;
    }
    Ok(0)
}

/// The bundle's text up to its acts, with these lines as the events of each process.
fn put_streams<T: AsRef<[u8]>>(streams: &Streams, texts: &[T], out: &mut Out) -> Result<(), Failure> {
    out.text(&[b"seqtrace ", &[streams.header][..], b"\n"].concat())?;
    for (&pid, text) in streams.pids.listed.iter().zip(texts) {
        out.line(|line| {
            line.extend_from_slice(b"process ");
            put_pid(line, pid);
        })?;
        out.text(text.as_ref())?;
    }
    Ok(out.line(|line| line.extend_from_slice(b"acts"))?)
}

fn replay(bytes: &[u8], out: &mut Out) -> Result<u8, Failure> {
    let streams = bundle::read(bytes)?;
    let mut world = World::new(&streams.pids);
    let mut texts: Vec<Vec<u8>> = vec![Vec::new(); streams.events.len()];
    let (mut number, mut stuck) = (0, None);
    for_each_act(bytes, &streams, |act, _| {
        if stuck.is_none() {
            match world.step(act, number) {
                Ok(outcome) => {
                    if let Some(event) = outcome.report {
                        let text = &mut texts[act.actor as usize];
                        put_event(text, &event);
                        text.push(b'\n');
                    }
                }
                Err(_) => stuck = Some(number),
            }
        }
        number += 1;
    })?;
    if let Some(number) = stuck {
        out.line(|text| {
            text.extend_from_slice(b"no stuck ");
            put_number(text, u64::from(number));
        })?;
        return Ok(1);
    }
    put_streams(&streams, &texts, out)?;
    let acts = streams.acts.unwrap_or(0..0);
    out.text(&bytes[acts])?;
    Ok(0)
}

fn put_acts(streams: &Streams, acts: &[Act], out: &mut Out) -> Result<(), Failure> {
    out.line(|text| text.extend_from_slice(b"acts"))?;
    for act in acts {
        out.line(|text| put_act(text, streams, act))?;
    }
    Ok(())
}

/// The lines of an unfit; `rest` writes what follows the places on the first.
fn report(streams: &Streams, unfit: &Unfit, rest: impl FnOnce(&mut Vec<u8>), out: &mut Out) -> Result<(), Failure> {
    out.line(|text| {
        text.extend_from_slice(b"unfit ");
        put_place(text, streams, unfit.at);
        text.push(b' ');
        text.extend_from_slice(unfit.word.as_bytes());
        if let Some(other) = unfit.other {
            text.push(b' ');
            put_place(text, streams, other);
        }
        rest(text);
    })?;
    for at in [Some(unfit.at), unfit.other].into_iter().flatten() {
        out.line(|text| {
            text.extend_from_slice(b"event ");
            put_place(text, streams, at);
            text.push(b' ');
            put_event(text, &streams.events[at.process as usize][at.index as usize]);
        })?;
    }
    Ok(())
}

fn audit_bundle(bytes: &[u8], out: &mut Out) -> Result<u8, Failure> {
    let streams = bundle::read(bytes)?;
    for_each_act(bytes, &streams, |_, _| ()).or_else(|failure| match failure {
        Failure::Fault("no acts") => Ok(()),
        failure => Err(failure),
    })?;
    match audit::audit(&streams) {
        Answer::Fits(acts) => {
            let has_nodes = streams.pids.listed.iter().any(|pid| pid >> 16 != 0);
            out.text(if has_nodes { b"seqtrace 2\n" } else { b"seqtrace 1\n" })?;
            out.text(&bytes[streams.text.clone()])?;
            put_acts(&streams, &acts, out)?;
            Ok(0)
        }
        Answer::Unfit(unfit) => {
            report(&streams, &unfit, |_| (), out)?;
            Ok(1)
        }
        Answer::NotReplayed(at, verdict, acts) => {
            let unfit = Unfit { word: "notreplayed", at, other: None };
            let rest = |text: &mut Vec<u8>| {
                text.push(b' ');
                put_verdict(text, &verdict);
            };
            report(&streams, &unfit, rest, out)?;
            put_acts(&streams, &acts, out)?;
            Ok(1)
        }
    }
}

fn chart_bundle(bytes: &[u8], label: u32, out: &mut Out) -> Result<u8, Failure> {
    let streams = bundle::read(bytes)?;
    for_each_act(bytes, &streams, |_, _| ()).or_else(|failure| match failure {
        Failure::Fault("no acts") => Ok(()),
        failure => Err(failure),
    })?;
    let pairs = match pairing::pair(&streams) {
        Ok(pairs) => pairs,
        Err(unfit) => {
            report(&streams, &unfit, |_| (), out)?;
            return Ok(1);
        }
    };
    if chart::chart(&streams, &pairs, label, out)? {
        return Ok(0);
    }
    out.line(|text| {
        text.extend_from_slice(b"no label ");
        put_number(text, u64::from(label));
    })?;
    Ok(1)
}

fn run(words: &[&str], out: &mut Out) -> Result<u8, Failure> {
    let mut bytes = Vec::new();
    io::stdin().lock().read_to_end(&mut bytes)?;
    match words {
        ["check"] => check(&bytes, out),
        ["replay"] => replay(&bytes, out),
        ["audit"] => audit_bundle(&bytes, out),
        ["chart", "--label", label] => chart_bundle(&bytes, label.parse().map_err(|_| Failure::Fault("usage"))?, out),
        ["drive"] => drive::drive(&bytes, out),
        _ => Err(Failure::Fault("usage")),
    }
}

fn main() -> ExitCode {
    let words: Vec<String> = std::env::args().skip(1).collect();
    let words: Vec<&str> = words.iter().map(String::as_str).collect();
    let mut out = Writer::new(io::stdout().lock());
    let status = match run(&words, &mut out).and_then(|status| Ok(out.flush().map(|()| status)?)) {
        Ok(status) => status,
        Err(Failure::Line(line)) => {
            let _ = writeln!(io::stderr(), "fault line {line}");
            2
        }
        Err(Failure::Fault(word)) => {
            let _ = writeln!(io::stderr(), "fault {word}");
            2
        }
        Err(Failure::Device) => 4,
    };
    ExitCode::from(status)
}
