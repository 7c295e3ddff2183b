//! The sentences of `audit`: each is here and nowhere else.

use super::judged::{event_at, Found, Judged, PutBack, Verdict};
use super::missing::{Before, Counter, Known, Lack, Missing};
use super::outcome::{Outcome, Said};
use super::unexplained::{serial_text, Explainer};
use super::Resets;
use crate::names::Names;
use crate::output::Output;
use crate::view::{count, grouped, Place, Shown, View};
use gemshowal::{signed, Event, Kind, NodeTrace, Pid, COUNTS};
use std::io::{self, Write};

/// The most events, processes or messages of a kind that are listed; the rest are counted.
const LISTED: usize = 20;
const EMPTY: &str = "nothing to audit: the trace has no events";
/// The premise of what no run has: an unreported send can stand for an alike one.
const FINAL: &str = "this holds if each send of a token was reported";
/// The other explanation of an event that a message without a reported receive explains.
const ANEW: &str = "begun anew with a counter left from an earlier trace";

pub(super) struct Sentences<'a> {
    pub(super) outcome: &'a Outcome,
    /// The whole trace.
    pub(super) node: &'a NodeTrace,
    pub(super) shown: &'a Shown<'a>,
    pub(super) missing: &'a Missing,
    /// Tells whether the collectors lost events.
    pub(super) is_lossy: bool,
    pub(super) name: &'a str,
}

impl Sentences<'_> {
    fn is_cut(&self) -> bool {
        self.shown.view.is_cut
    }

    /// Returns the words for a trace that was cut on purpose, or those for a whole one.
    fn cut_or(&self, cut: &'static str, whole: &'static str) -> &'static str {
        match self.is_cut() {
            true => cut,
            false => whole,
        }
    }

    fn of_node<'a>(&'a self, judged: &'a Judged) -> NodeSentences<'a> {
        NodeSentences { node: self.node, view: self.shown.view, judged }
    }

    pub(super) fn headline(&self) -> String {
        match (&self.outcome.said, &self.outcome.judged) {
            (Said::Never(against), _) if self.outcome.is_never() => {
                against.headline(self.shown.view)
            }
            (_, Some(judged)) => self.of_node(judged).headline() + &self.or_not_received(),
            _ if self.shown.view.trace.streams().total() == 0 => EMPTY.into(),
            _ => format!("fits: {}{}", size(self.shown.view), self.left_out()),
        }
    }

    /// Says of a trace in which tokens were put back how many receives may be missing instead.
    fn or_not_received(&self) -> String {
        let is_receive = |lack: &&Lack| match **lack {
            Lack::Added(place, _) => self.is_receive(place),
            Lack::Unreceived(..) => true,
            Lack::Hidden(_) => false,
        };
        match self.missing.lacks.iter().filter(is_receive).count() as u64 {
            0 => String::new(),
            1 => ", or 1 receive wasn't reported".into(),
            more => format!(", or {} weren't reported", count(more, "receive")),
        }
    }

    /// Says in short what is missing. No event tells of what a cut or the collectors took away.
    fn left_out(&self) -> String {
        if self.missing.is_nothing() {
            return match self.sum(|counter| u64::from(counter.behind > 0)) {
                0 if self.is_cut() || self.is_lossy => {
                    "; nothing else is known to be missing".into()
                }
                0 => "; nothing is known to be missing".into(),
                behind => format!(
                    "; {} may have sent or printed something {} before the first send or print here",
                    count(behind, "process"),
                    self.cut_or("that isn't here", "unreported")
                ),
            };
        }
        let mut said = String::new();
        let missing = self.what_is_missing();
        if !missing.is_empty() {
            said += &format!(", with {}", missing.join(", "));
        }
        if !self.missing.open.is_empty() {
            let events = count(self.missing.open.len() as u64, "event");
            said += &format!("; the cause of {events} isn't known{}", self.cut_or(" here", ""));
        }
        if !self.missing.waiting.is_empty() {
            said += &format!("; {}", self.not_received());
        }
        said
    }

    fn sum(&self, number: impl Fn(&Counter) -> u64) -> u64 {
        self.missing.counters.iter().map(|(_, counter)| number(counter)).sum()
    }

    fn what_is_missing(&self) -> Vec<String> {
        let mut missing = Vec::new();
        let by =
            self.cut_or("that nobody reported or that the cut took away", "that nobody reported");
        if let Some(unreported) = self.unreported() {
            missing.push(format!("{unreported} {by}"));
        }
        let strangers = self.strangers();
        if strangers > 0 {
            let from = match self.shown.unlisted().len() {
                1 => "a process that the trace doesn't list".into(),
                several => format!("{several} processes that the trace doesn't list"),
            };
            missing.push(format!("probably {} from {from}", count(strangers, "message")));
        }
        let (silent, jumps) = (self.sum(|it| it.silent), self.sum(|it| it.jumps));
        if silent > 0 {
            missing.push(format!("{} that no event here has", count(silent, "count")));
        }
        if jumps > 0 {
            missing.push(count(jumps, "jump of a counter"));
        }
        missing
    }

    /// Counts the messages of unlisted processes in the completion.
    fn strangers(&self) -> u64 {
        let stranger = |lack: &Lack| match *lack {
            Lack::Added(place, _) if self.is_receive(place) => {
                self.shown.stranger(self.shown.streams.event(place.0, place.1)?.from)
            }
            _ => None,
        };
        self.missing.lacks.iter().filter_map(stranger).count() as u64
    }

    fn is_receive(&self, (pid, index): Place) -> bool {
        self.shown.streams.event(pid, index).is_some_and(|event| event.kind == Kind::Receive)
    }

    /// Says how many events nobody reported: the certain ones, and the others of listed processes.
    fn unreported(&self) -> Option<String> {
        let (mut certain, mut supposed) = ([0; 2], [0; 2]);
        for lack in &self.missing.lacks {
            match *lack {
                Lack::Hidden(_) | Lack::Added(_, Known::Certain) => certain[0] += 1,
                Lack::Unreceived(..) => supposed[1] += 1,
                Lack::Added((pid, _), _) if self.shown.stranger(pid).is_some() => {}
                Lack::Added(place, _) => supposed[usize::from(self.is_receive(place))] += 1,
            }
        }
        let more = if certain[0] > 0 && supposed[0] > 0 { "more " } else { "" };
        let supposed =
            (supposed != [0, 0]).then(|| format!("probably {}", by_kind(supposed, more)));
        let certain = (certain != [0, 0]).then(|| by_kind(certain, ""));
        let said: Vec<String> = certain.into_iter().chain(supposed).collect();
        (!said.is_empty()).then(|| said.join(" and "))
    }

    /// Says that messages have no receive. A port reports none, a node drops a reply whose caller
    /// waits no longer, and a message to another node may get there without its token.
    fn not_received(&self) -> String {
        let waiting = &self.missing.waiting;
        if self.is_cut() {
            let has = if waiting.len() == 1 { "has" } else { "have" };
            return format!("{} {has} no receive here", count(waiting.len() as u64, "message"));
        }
        let sends = waiting.iter().filter_map(|&(pid, i)| self.shown.streams.event(pid, i));
        not_received(self.shown.view.names, &sends.collect::<Vec<_>>())
    }

    pub(super) fn write_details(&self, out: &mut Output) -> io::Result<()> {
        if let Some(judged) = &self.outcome.judged {
            let node = self.of_node(judged);
            let against = self.outcome.against();
            let refused = against.map(|it| it.refused(self.shown.view, true).to_string());
            let refused = refused.unwrap_or_default();
            if self.outcome.is_never() {
                write!(out, "{refused}")?;
                return node.write(self.outcome, out);
            }
            node.write(self.outcome, out)?;
            let Some(against) = against else { return self.write_instead(out) };
            let event = self.shown.event(against.place);
            let word = against.word();
            return write!(
                out,
                "If all was reported, it doesn't fit, because of {event} ({word}):\n{refused}"
            );
        }
        self.write_lacks(out)?;
        if !self.missing.waiting.is_empty() {
            let messages = listed(&self.missing.waiting, |&send| self.message(send));
            let here = self.cut_or("receive here", "reported receive");
            writeln!(out, "Messages without a {here}: {messages}.")?;
        }
        self.write_counters(out)?;
        if !self.missing.open.is_empty() && !self.is_cut() {
            self.write_open(out)?;
        }
        if self.outcome.ranked.is_some() {
            writeln!(
                out,
                "The counts begin high, so the audit took their ranks, which doesn't change the \
                 answer; the serials shown here are the node's own."
            )?;
        }
        Ok(())
    }

    /// Lists what wasn't reported if no token was put back.
    fn write_instead(&self, out: &mut Output) -> io::Result<()> {
        let nobody = self.what_nobody_reported();
        let heading = format!("{nobody} if no token was put back, in the run that was found");
        self.write_list(out, &heading, &self.missing.lacks)
    }

    fn write_lacks(&self, out: &mut Output) -> io::Result<()> {
        let lacks = &self.missing.lacks;
        let is_certain = |it: &Lack| matches!(it, Lack::Hidden(_) | Lack::Added(_, Known::Certain));
        let (certain, supposed): (Vec<_>, Vec<_>) = lacks.iter().copied().partition(is_certain);
        if let Said::Completed(_) = self.outcome.said {
            let heading = format!("{}, in the run that was found", self.what_nobody_reported());
            self.write_list(out, &heading, lacks)?;
            if !supposed.is_empty() {
                self.write_in_place_of(out, !certain.is_empty())?;
            }
        } else {
            self.write_list(out, self.what_nobody_reported(), &certain)?;
            let probably =
                self.cut_or("What probably isn't here", "What was probably not reported");
            let heading = format!("{probably}, unless its process has {ANEW}");
            self.write_list(out, &heading, &supposed)?;
        }
        if supposed.iter().any(|lack| matches!(lack, Lack::Added(_, Known::Invented))) {
            writeln!(
                out,
                "Nobody knows what the unknown messages were, or whether other processes sent them."
            )?;
        }
        Ok(())
    }

    fn what_nobody_reported(&self) -> &'static str {
        self.cut_or("What nobody reported, or what the cut took away", "What nobody reported")
    }

    fn write_list(&self, out: &mut Output, heading: &str, lacks: &[Lack]) -> io::Result<()> {
        if lacks.is_empty() {
            return Ok(());
        }
        writeln!(out, "{heading}:")?;
        write_all(out, lacks, |lack| self.lack(lack))
    }

    fn write_in_place_of(&self, out: &mut Output, is_some_certain: bool) -> io::Result<()> {
        let present = self.cut_or("is here", "was reported");
        if is_some_certain {
            write!(
                out,
                "Of this only the sends whose receive {present} are certain; in place of the rest"
            )?;
        } else {
            write!(out, "In place of this")?;
        }
        writeln!(out, " a process may have {ANEW}.")
    }

    pub(super) fn lack(&self, lack: &Lack) -> String {
        let event = |(pid, index): Place| self.shown.streams.event(pid, index);
        let other_end = |end: Place, kind| {
            let other = event(end).map(|event| Event { kind, ..event });
            other.map(|other| self.shown.sentence(&other)).unwrap_or_default()
        };
        match *lack {
            Lack::Added(place, known) => {
                let sentence = event(place).map(|event| match known {
                    Known::Invented => self.shown.sentence_of_unknown(&event),
                    Known::Certain | Known::Supposed => self.shown.sentence(&event),
                });
                format!("{}: {}", self.shown.event(place), sentence.unwrap_or_default())
            }
            Lack::Hidden(receive) => {
                let send = other_end(receive, Kind::Send);
                format!("{send}, received as {}", self.shown.event(receive))
            }
            Lack::Unreceived(send, before) => {
                format!("{}, before {}", other_end(send, Kind::Receive), self.before(before))
            }
        }
    }

    pub(super) fn before(&self, before: Before) -> String {
        match before {
            Before::Event(place) => self.shown.event(place),
            Before::SendOf(receive) => format!("the send of {}", self.shown.event(receive)),
        }
    }

    fn message(&self, send: Place) -> String {
        let to = self.shown.streams.event(send.0, send.1).and_then(|event| event.to);
        let to = to.map(|to| format!(" to {}", self.shown.process(to))).unwrap_or_default();
        format!("{}{to}", self.shown.event(send))
    }

    /// Says what resets would explain, and where they are.
    pub(super) fn write_resets(&self, resets: &Resets, out: &mut Output) -> io::Result<()> {
        let (what, lacking) = match resets.put_backs {
            Some(number) => (count(number, "put-back"), ""),
            None => ("it".into(), ", if what the parts lack wasn't reported"),
        };
        match &resets.places[..] {
            [] => Ok(()),
            [place] => writeln!(
                out,
                "A reset would explain {what}, as two runs in one trace would{lacking}: {place}."
            ),
            places => {
                writeln!(
                    out,
                    "Resets would explain {what}, as several runs in one trace would{lacking}:"
                )?;
                let mut places = places.iter().zip(1..);
                places.try_for_each(|(place, at)| writeln!(out, "  {at}. {place}"))
            }
        }
    }

    fn write_counters(&self, out: &mut Output) -> io::Result<()> {
        let silent = self.counted(|it| it.silent);
        if !silent.is_empty() {
            let by = of_processes(&silent, |(pid, number)| {
                format!("{} of {}", grouped(*number), self.shown.process(*pid))
            });
            writeln!(out, "Counts that no event here has: {by}.")?;
        }
        let jumps = self.counted(|it| it.jumps);
        if !jumps.is_empty() {
            let anything = self.cut_or("anything here", "anything reported");
            let often = self.often(&jumps);
            writeln!(out, "A counter jumps if it is higher than {anything} explains: {often}.")?;
        }
        if !silent.is_empty() || !jumps.is_empty() {
            let that = self.cut_or("that isn't here", "that wasn't reported");
            writeln!(
                out,
                "Something was received, sent or printed there {that}, unless a process was \
                 spawned, a token from elsewhere or from before the trace was put back, or a \
                 token's serial was set by hand (set_token/2)."
            )?;
        }
        self.write_beginnings(out)
    }

    fn write_beginnings(&self, out: &mut Output) -> io::Result<()> {
        if !self.is_cut() {
            let before = self.counted(|it| it.before).into_iter();
            let named = |(pid, stood)| (self.shown.process(pid).into_owned(), grouped(stood));
            write_counters(&before.map(named).collect::<Vec<_>>(), out)?;
        }
        let spawns = self.counted(|it| it.spawns);
        if !spawns.is_empty() {
            writeln!(
                out,
                "When OTP answers a spawn, it moves the counter of the process that asked for it: \
                 {}.",
                self.often(&spawns)
            )?;
        }
        Ok(())
    }

    /// Returns the processes for which a number isn't 0, with that number.
    pub(super) fn counted(&self, number: impl Fn(&Counter) -> u64) -> Vec<(Pid, u64)> {
        let counted = self.missing.counters.iter().map(|(pid, counter)| (*pid, number(counter)));
        counted.filter(|(_, number)| *number > 0).collect()
    }

    fn often(&self, counts: &[(Pid, u64)]) -> String {
        of_processes(counts, |(pid, number)| {
            let times = match number {
                1 => "once".into(),
                number => format!("{} times", grouped(*number)),
            };
            format!("that of {} {times}", self.shown.process(*pid))
        })
    }

    /// Writes which events have no known cause, and how to ask what it may be.
    fn write_open(&self, out: &mut Output) -> io::Result<()> {
        let Some(&first) = self.missing.open.first() else { return Ok(()) };
        let events = listed(&self.missing.open, |&place| self.shown.event(place));
        writeln!(
            out,
            "The cause isn't known of {events}; this says what it may be: gemshowal why {} {}",
            quoted(self.name),
            quoted(&self.shown.event(first))
        )?;
        match self.overtaken(first) {
            None => Ok(()),
            Some(later) => writeln!(
                out,
                "{} would follow {}, which comes after it, if the two are in the wrong order.",
                self.shown.event(first),
                self.shown.event(later)
            ),
        }
    }

    fn overtaken(&self, (pid, index): Place) -> Option<Place> {
        let event = self.shown.streams.event(pid, index)?;
        let later = self.shown.streams.events(pid).iter().zip(0..).find(|&(other, at)| {
            at > index
                && other.kind == Kind::Receive
                && other.serial.this == event.serial.prev
                && other.label == event.label
        });
        later.map(|(_, at)| (pid, at))
    }
}

/// The sentences about what the rules of a standard node say.
pub(super) struct NodeSentences<'a> {
    pub(super) node: &'a NodeTrace,
    pub(super) view: &'a View<'a>,
    pub(super) judged: &'a Judged,
}

impl NodeSentences<'_> {
    pub(super) fn headline(&self) -> String {
        match self.judged.verdict() {
            _ if self.view.trace.streams().total() == 0 => EMPTY.into(),
            Verdict::Never => format!("doesn't fit: {}", self.against()),
            Verdict::Unexplained => {
                format!("fits if something wasn't reported: {}", self.unexplained())
            }
            Verdict::Fits => format!(
                "fits: {}{}{}{}{}",
                size(self.view),
                self.found(),
                self.beginnings(),
                self.missing(),
                self.tokens()
            ),
        }
    }

    /// Says why no run of a standard node has the trace.
    fn against(&self) -> String {
        match &self.judged.doubled[..] {
            [] => format!(
                "in no order of the events does each receive come after its send, because of {}",
                self.listed(&self.judged.cycle)
            ),
            doubled => format!(
                "messages were received more often than they were sent: {}",
                self.listed(doubled)
            ),
        }
    }

    /// Says what the run that was found has besides the events of the trace.
    fn found(&self) -> String {
        let before = Found { sends: self.judged.sent_before.len() as u64, receives: 0, counts: 0 };
        let found = self.judged.found.filter(|_| !self.view.is_cut);
        let Found { sends, receives, counts } = found.unwrap_or(before);
        let mut said = Vec::new();
        if sends + receives > 0 {
            said.push(format!("{} that nobody reported", by_kind([sends, receives], "")));
        }
        if counts > 0 {
            said.push(format!("{} that no event here has", count(counts, "count")));
        }
        let with = if said.is_empty() { "" } else { ", with " };
        format!("{with}{}", said.join(", "))
    }

    fn beginnings(&self) -> String {
        match self.judged.earlier.len() as u64 {
            0 => String::new(),
            1 => "; the counter of 1 process goes on from before".into(),
            more => format!("; the counters of {more} processes go on from before"),
        }
    }

    fn missing(&self) -> String {
        let waiting = self.judged.waiting.iter();
        let sends: Vec<Event> = waiting.filter_map(|&place| event_at(self.node, place)).collect();
        let is_whole = self.view.names.losses().is_empty() && !self.view.is_cut;
        match (sends.is_empty(), self.judged.found) {
            (false, _) => format!("; {}", not_received(self.view.names, &sends)),
            (true, Some(_)) => String::new(),
            (true, None) if is_whole => "; nothing is known to be missing".into(),
            (true, None) => "; nothing else is known to be missing".into(),
        }
    }

    fn tokens(&self) -> String {
        let found = if self.judged.found.is_some() { " in the run that was found" } else { "" };
        let put_back = tokens_were(self.judged.put_backs.len(), &format!("put back{found}"));
        put_back + &tokens_were(self.judged.handed_over.len(), "handed over")
    }

    fn unexplained(&self) -> String {
        let mut said = Vec::new();
        let Judged { ungiven, unsent, .. } = self.judged;
        if !ungiven.is_empty() {
            let kind = |place: &Place| event_at(self.node, *place).map(|event| event.kind);
            let events = self.view.trace.events();
            let stamps = events.filter(|(_, event)| event.kind != Kind::Receive).count();
            let hidden = ungiven.iter().filter(|it| kind(it) == Some(Kind::Receive)).count();
            said.push(format!(
                "{} of {} {} explained by what was",
                grouped(ungiven.len() as u64),
                count((stamps + hidden) as u64, "serial"),
                if ungiven.len() == 1 { "isn't" } else { "aren't" }
            ));
        }
        match unsent.len() {
            0 => {}
            1 => said.push("1 receive has no reported send".into()),
            more => said.push(format!("{} have no reported send", count(more as u64, "receive"))),
        }
        said.join(", and ")
    }

    fn write(&self, outcome: &Outcome, out: &mut Output) -> io::Result<()> {
        match (&outcome.said, self.judged.verdict()) {
            (Said::Never(_), Verdict::Never) => writeln!(out, "{}", self.either())?,
            (_, Verdict::Never) => writeln!(out, "{FINAL}")?,
            _ => {}
        }
        self.write_unexplained(out)?;
        if !self.view.is_cut {
            write_counters(&self.counters(), out)?;
        }
        if self.judged.found.is_some() && !self.judged.put_backs.is_empty() {
            writeln!(out, "Another run may have fewer tokens put back, or others. This one has:")?;
        }
        write_all(out, &self.judged.put_backs, |put_back| self.put_back(put_back))?;
        write_all(out, &self.judged.handed_over, |it| {
            let (place, of) = (self.event(it.place), self.event(it.of));
            format!("{place}: the token of {of}, {}, was handed over", serial_text(it.token))
        })
    }

    /// Says why a standard node has no run either.
    fn either(&self) -> String {
        let Judged { doubled, cycle, copies, .. } = self.judged;
        if doubled.is_empty() && cycle.is_empty() {
            return format!(
                "A standard node that puts tokens back may report it, or events were collected \
                 twice, which no times tell apart: {}",
                self.listed(copies)
            );
        }
        format!(
            "A standard node that puts tokens back doesn't report it either, if each send of a \
             token was reported: {}",
            self.against()
        )
    }

    fn write_unexplained(&self, out: &mut Output) -> io::Result<()> {
        let explainer = Explainer::new(self.node, self.view.names, &self.judged.waiting);
        write_all(out, &self.judged.ungiven, |&place| {
            let why = explainer.explanation(place, self.judged);
            format!("{}: {why}", self.stamp(place))
        })?;
        write_all(out, &self.judged.unsent, |&place| {
            format!("{}: {}", self.event(place), explainer.unsent(place))
        })?;
        write_all(out, &self.judged.sent_before, |&place| {
            let unsent = explainer.unsent(place);
            format!("{}: {unsent}, and can have come before the trace", self.event(place))
        })
    }

    /// Returns the processes whose counter goes on from before the trace, with its count.
    fn counters(&self) -> Vec<(String, String)> {
        let counter = |&place: &Place| {
            let stamp = event_at(self.node, place)?.serial.this;
            let stood = signed(stamp.wrapping_sub(1) % COUNTS);
            Some((self.view.names.process(place.0).into_owned(), stood.to_string()))
        };
        self.judged.earlier.iter().filter_map(counter).collect()
    }

    fn event(&self, place: Place) -> String {
        self.view.names.event(place)
    }

    fn stamp(&self, place: Place) -> String {
        let serial = event_at(self.node, place).map(|event| serial_text(event.serial));
        format!("{} {}", self.event(place), serial.unwrap_or_default())
    }

    fn put_back(&self, put_back: &PutBack) -> String {
        let PutBack { place, before, token, of, is_hidden } = *put_back;
        let token = match of {
            Some(of) => format!("the token of {}", self.event(of)),
            None => format!("a token that it had made, {},", serial_text(token)),
        };
        let send_of = if is_hidden { "the send of " } else { "" };
        let before = (before != place).then(|| format!(" before {}", self.event(before)));
        let before = before.unwrap_or_default();
        format!("{send_of}{}: {token} was put back{before}", self.event(place))
    }

    fn listed(&self, places: &[Place]) -> String {
        listed(places, |&place| self.event(place))
    }
}

/// Says that tokens were put back or handed over, if any were.
fn tokens_were(number: usize, done: &str) -> String {
    match number as u64 {
        0 => String::new(),
        1 => format!("; 1 token was {done}"),
        more => format!("; {} were {done}", count(more, "token")),
    }
}

fn size(view: &View<'_>) -> String {
    let streams = view.trace.streams();
    let processes = streams.pids().len() as u64;
    format!("{} of {}", count(streams.total(), "event"), count(processes, "process"))
}

/// Says what of an answer isn't proved, if the rules of a standard node gave it or not. Where acts
/// can be built, the proved programs can be asked.
pub(super) fn not_proved(is_wrapped: bool, is_of_node: bool, has_acts: bool) -> String {
    let what = match (is_wrapped, is_of_node) {
        (true, _) => "how it reads this version, and its words, are only tested",
        (false, true) if has_acts => {
            "that a standard node has such a run, and its words, are only tested; --proved asks \
             the proved programs"
        }
        (false, true) => "that a standard node has such a run, and its words, are only tested",
        (false, false) => "its words are only tested; --proved asks the proved programs",
    };
    format!("This answer is not proved: gemshowal is a plain build of proved sources, and {what}.")
}

/// Says how many sends and receives there are; receives are never certain.
fn by_kind([sends, receives]: [u64; 2], more: &str) -> String {
    let send = format!("{more}send");
    let kinds = [(sends, send.as_str()), (receives, "receive")];
    let said = kinds.into_iter().filter(|(number, _)| *number > 0);
    said.map(|(number, kind)| count(number, kind)).collect::<Vec<_>>().join(" and ")
}

/// Writes a line for each of these, and how many more there are.
fn write_all<T>(out: &mut Output, all: &[T], line: impl Fn(&T) -> String) -> io::Result<()> {
    for one in all.iter().take(LISTED) {
        writeln!(out, "  {}", line(one))?;
    }
    match all.len().saturating_sub(LISTED) as u64 {
        0 => Ok(()),
        more => writeln!(out, "  and {} more", grouped(more)),
    }
}

fn listed<T>(things: &[T], say: impl Fn(&T) -> String) -> String {
    let mut said: Vec<String> = things.iter().take(LISTED).map(say).collect();
    if let Some(rest) = things.len().checked_sub(LISTED).filter(|rest| *rest > 0) {
        said.push(format!("and {} more", grouped(rest as u64)));
    }
    said.join(", ")
}

/// Says what may have become of the messages of these sends, whose receives weren't reported.
fn not_received(names: &Names, sends: &[Event]) -> String {
    let to_port = |send: &Event| send.to.is_some_and(|to| names.is_port(to));
    let is_late = |send: &Event| names.is_reply_to_alias(send.value);
    let is_exit = |send: &Event| names.is_exit(send.value);
    let is_far =
        |send: &Event| send.to.is_some_and(|to| names.are_on_different_nodes(to, send.from));
    let ways = [
        (sends.iter().any(to_port), ", or went to a port"),
        (sends.iter().any(is_late), ", or came too late, as a reply may"),
        (sends.iter().any(is_far), ", or reached another node without a token"),
        (
            sends.iter().any(is_exit),
            ", or told of an exit, which is no message if it isn't trapped",
        ),
    ];
    let ways: String = ways.iter().filter(|(is_so, _)| *is_so).map(|(_, way)| *way).collect();
    let has = if sends.len() == 1 { "has" } else { "have" };
    let messages = count(sends.len() as u64, "message");
    format!("{messages} {has} no reported receive, and may still wait{ways}")
}

/// Writes where the counters of these processes stood before the trace.
fn write_counters(before: &[(String, String)], out: &mut Output) -> io::Result<()> {
    let Some(((first, stood), rest)) = before.split_first() else { return Ok(()) };
    let rest = rest.iter().map(|(name, stood)| format!("that of {name} {stood}"));
    let was: Vec<String> = [format!("{first} was {stood}")].into_iter().chain(rest).collect();
    writeln!(
        out,
        "Counters go on from trace to trace, and count what isn't reported too. Before the first \
         send or print here, the counter of {}. That is usual if the node was traced before; \
         `seqaudit-node collect --reset' begins with all counters at 0.",
        of_processes(&was, String::clone)
    )
}

pub(super) fn of_processes<T>(things: &[T], say: impl Fn(&T) -> String) -> String {
    let (first, more) = things.split_at(things.len().min(LISTED));
    let said = listed(first, say);
    match more.len() as u64 {
        0 => said,
        more => format!("{said}, and so of {} more processes", grouped(more)),
    }
}

/// Returns a word as a shell takes it.
fn quoted(word: &str) -> String {
    let is_plain = |c: char| c.is_ascii_alphanumeric() || matches!(c, '_' | '.' | '/' | '-');
    if !word.is_empty() && word.chars().all(is_plain) {
        word.into()
    } else {
        format!("'{}'", word.replace('\'', "'\\''"))
    }
}

/// Writes what is lost, by the facts of the conversion. If only nothing came, nothing need be lost.
pub(crate) fn write_losses(losses: &[String], out: &mut Output) -> io::Result<()> {
    match losses {
        [] => Ok(()),
        [nothing] if nothing.starts_with("no events came") => {
            writeln!(out, "N{}.", nothing.get(1..).unwrap_or_default())
        }
        _ => {
            writeln!(out, "The trace isn't whole:")?;
            losses.iter().try_for_each(|loss| writeln!(out, "  {loss}"))
        }
    }
}
