//! The work of processes, from a receive to the last stamp that follows it, and their calls, as far
//! as terms tell them: a request has a reference, and its reply has the same one.
//!
//! A process that waits for the reply to its own call goes on with what it did before, so the
//! receive of that reply begins nothing.

use super::scene::{Place, Scene, Table};
use crate::causes::Cause;
use crate::names::Names;
use gemshowal::{Item, Kind};
use std::collections::HashMap;

#[derive(Clone, Copy, Debug)]
pub(super) struct Work {
    pub(super) receive: Place,
    /// The index of the last send or print that follows it.
    pub(super) last: u64,
    /// The index of the send of the reply, if the message is a call.
    pub(super) reply: Option<u64>,
}

pub(super) struct Works {
    pub(super) all: Vec<Work>,
    of: Table<u32>,
    /// For each send whose receive wasn't reported the last send or print that follows its message.
    pub(super) followers: HashMap<Place, Place>,
}

impl Works {
    pub(super) fn of(scene: &Scene<'_>, calls: &Calls) -> Works {
        let mut works = Works { all: Vec::new(), of: Table::of(scene), followers: HashMap::new() };
        for (place, event) in scene.events() {
            let work = match event.kind {
                Kind::Receive => works.at_receive(scene, calls, place),
                Kind::Send | Kind::Print => works.at_stamp(scene, place, event.value),
            };
            works.of.set(scene, place, work);
        }
        works
    }

    /// Finds the work that a receive belongs to. It begins one, unless it is a reply.
    fn at_receive(&mut self, scene: &Scene<'_>, calls: &Calls, receive: Place) -> Option<u32> {
        match calls.requests.get(&receive) {
            Some(&request) => self.of.get(scene, request),
            None => {
                self.all.push(Work { receive, last: receive.1, reply: None });
                u32::try_from(self.all.len() - 1).ok()
            }
        }
    }

    /// Finds the work that a send or print belongs to: that of the receive that it follows.
    fn at_stamp(&mut self, scene: &Scene<'_>, (pid, index): Place, value: u64) -> Option<u32> {
        let link = scene.link((pid, index));
        if let Cause::Message(send) = link.cause {
            self.followers.insert(send.place(), (pid, index));
        }
        let receive = link.after().map(Item::place)?;
        let number = self.of.get(scene, receive)?;
        let work = self.all.get_mut(number as usize)?;
        work.last = index;
        let request = scene.event(work.receive).and_then(|event| role(scene, event.value));
        match (request, role(scene, value)) {
            (Some(Role::Request(one)), Some(Role::Reply(other))) if one == other => {
                work.reply = Some(index);
            }
            _ => {}
        }
        Some(number)
    }

    pub(super) fn at(&self, scene: &Scene<'_>, place: Place) -> Option<&Work> {
        self.all.get(self.of.get(scene, place)? as usize)
    }
}

#[derive(Clone, Copy, Debug, PartialEq, Eq)]
pub(super) enum Role<'a> {
    Request(&'a str),
    Reply(&'a str),
}

/// Returns the part of a message in a call, or `None` if it has none, or there are no terms.
pub(super) fn role<'a>(scene: &Scene<'a>, value: u64) -> Option<Role<'a>> {
    let term = scene.names.term(value)?;
    if let Some(caller) = term.strip_prefix("{'$gen_call',{") {
        return Some(Role::Request(reference(caller.split_once(',')?.1)?));
    }
    Some(Role::Reply(reference(term.strip_prefix('{')?)?))
}

/// Returns the reference at the front of this text: `#Ref<0.1.2.3>`, or `[alias|#Ref<0.1.2.3>]`.
fn reference(text: &str) -> Option<&str> {
    let inside = text.strip_prefix("[alias|").unwrap_or(text).strip_prefix("#Ref<")?;
    let (numbers, rest) = inside.split_once('>')?;
    rest.starts_with([',', ']', '}']).then_some(numbers)
}

/// The calls whose request and whose reply's receive were both reported.
#[derive(Debug, Default)]
pub(super) struct Calls {
    /// For each request's send the reply's receive.
    pub(super) replies: HashMap<Place, Place>,
    /// For each reply's receive the request's send.
    pub(super) requests: HashMap<Place, Place>,
}

impl Calls {
    pub(super) fn of(scene: &Scene<'_>) -> Calls {
        let mut calls = Calls::default();
        let mut open = HashMap::new();
        for (place, event) in scene.events() {
            match (event.kind, role(scene, event.value)) {
                (Kind::Send, Some(Role::Request(reference))) => {
                    open.insert((place.0, reference), place);
                }
                (Kind::Receive, Some(Role::Reply(reference))) => {
                    if let Some(request) = open.remove(&(place.0, reference)) {
                        calls.replies.insert(request, place);
                        calls.requests.insert(place, request);
                    }
                }
                _ => {}
            }
        }
        calls
    }
}

/// Says what was done by sending a message, and what sort it is.
pub(super) fn sent(scene: &Scene<'_>, value: u64) -> String {
    if !scene.names.has_terms() {
        return "send".into();
    }
    let (way, sort) = way_and_sort(scene.names, value);
    match (role(scene, value), way) {
        (Some(Role::Request(_)), _) => format!("call {sort}"),
        (Some(Role::Reply(_)), _) => format!("reply {sort}"),
        (None, "cast " | "spawn ") => format!("cast {sort}"),
        (None, "spawned ") => "send spawned".into(),
        (None, _) => format!("send {sort}"),
    }
}

/// Says what was done with a message by this word, and what sort it is.
pub(super) fn with_sort(scene: &Scene<'_>, word: &str, value: u64) -> String {
    if !scene.names.has_terms() {
        return word.into();
    }
    format!("{word} {}", way_and_sort(scene.names, value).1)
}

/// Names the kind of a message: how it is sent, and its sort, as `call order`.
pub(crate) fn kind(names: &Names, value: u64) -> String {
    let (way, sort) = way_and_sort(names, value);
    way.to_owned() + sort.as_str()
}

/// Returns how a message is sent, if OTP has a form for that, and its sort: that of the term which
/// it brings, or the module of a spawn.
fn way_and_sort(names: &Names, value: u64) -> (&'static str, String) {
    let Some((way, term)) = names.way_and_term(value) else { return ("", "value".into()) };
    let ways = ["call ", "cast ", "reply ", "spawn ", "spawned "];
    let known = ways.into_iter().find(|known| way.starts_with(known)).unwrap_or_default();
    let sort = sort(if known == "spawn " { &way[known.len()..] } else { term });
    (known, sort.strip_prefix("Elixir.").unwrap_or(sort).into())
}

/// Returns the first atom of a term, or the kind of the term if it doesn't begin with one. Labels
/// are in Elixir's form if the trace's other terms are.
pub(super) fn sort(term: &str) -> &str {
    let inside = term.strip_prefix('{').unwrap_or(term);
    let inside = inside.strip_prefix(':').unwrap_or(inside);
    let is_of_atom = |c: char| c.is_alphanumeric() || matches!(c, '_' | '@');
    let end = inside.find(|c| !is_of_atom(c)).unwrap_or(inside.len());
    match inside.chars().next() {
        Some('\'') => quoted(inside).unwrap_or("term"),
        Some(first) if first.is_lowercase() => inside.get(..end).unwrap_or("term"),
        Some(first) if first.is_ascii_digit() || first == '-' => "number",
        Some('"' | '[') => "list",
        Some('<') if inside.starts_with("<<") => "binary",
        Some('<') => "pid",
        Some('#') if inside.starts_with("#{") => "map",
        _ => "term",
    }
}

fn quoted(text: &str) -> Option<&str> {
    let end = text.get(1..)?.find('\'')?;
    text.get(1..end + 1)
}
