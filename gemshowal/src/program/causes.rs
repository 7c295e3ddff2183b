//! Says what each event of a trace follows on a standard node, and how sure that is, with the
//! events that `complete` adds.
//!
//! What a reported event follows comes from the proved hops, or, where a token was put back, from
//! the proved origins. Where these stop at an event that wasn't reported, the hops of the completed
//! trace go on, which say what is so in one run of several: so that is said with `perhaps`. The
//! completion puts no token back, so nothing is said where a known token may have been.

use crate::audit;
use crate::messages::{before, last_of_answer};
use crate::messages::{Found, LabelUse, Messages, Source, Sources, Strays};
use crate::names::Names;
use crate::reason::paired;
use crate::view::{Kept, Place, Shown, View};
use crate::Failure;
use gemshowal::{Answer, Event, EventOrigins, Item, Kind, Never, NodeHop, NodeHops, NodePremises};
use gemshowal::{
    Origins, OutOfMemory, Paired, Partner, Pid, ProcessHops, Serial, StampOrigin, Trace, Way,
};
use std::alloc::{handle_alloc_error, Layout};
use std::borrow::Cow;
use std::cell::{OnceCell, RefCell};
use std::collections::{HashMap, HashSet};

#[derive(Clone, Copy, Debug, PartialEq, Eq)]
pub(crate) enum Grade {
    /// Holds in every run of a standard node without a reset that reports the trace.
    Certain,
    /// Holds in each of these runs that meets the premises with these numbers.
    Under(&'static [u8]),
    /// Holds in the run that `complete` finds.
    Perhaps,
}

/// The premise of a receive's send.
const SENDS_REPORTED: Grade = Grade::Under(&[4]);

/// The premises where a token was put back, or a spawn moved the counters.
const OWN_TOKENS: Grade = Grade::Under(&[5, 6, 7]);

/// The premises where receives weren't reported: of the first event of a label that no message
/// gave, of later ones, and of a label that its process may have received.
const NO_MESSAGE: Grade = Grade::Under(&[6, 8]);
const OWN_LABEL: Grade = Grade::Under(&[6, 7, 8]);
const LABEL_RECEIVED: Grade = Grade::Under(&[6, 8, 9]);

impl Grade {
    fn of(hop: NodeHop) -> Grade {
        match hop.premises() {
            NodePremises::Nothing => Grade::Certain,
            NodePremises::KeptCounters => Grade::Under(&[1, 2]),
            NodePremises::KeptToken => Grade::Under(&[1, 2, 3]),
            NodePremises::SendsReported => SENDS_REPORTED,
        }
    }

    pub(crate) fn premises(self) -> &'static [u8] {
        match self {
            Grade::Under(premises) => premises,
            Grade::Certain | Grade::Perhaps => &[],
        }
    }
}

/// The cause of an event. An item is a place among the events that are shown, the added ones among
/// them.
#[derive(Clone, Copy, Debug, PartialEq, Eq)]
pub(crate) enum Cause {
    /// The send of a receive, or the receive that brought the token of a send or print. A hidden
    /// send is one that wasn't reported, and that no completion adds.
    After(Item),
    /// The message of this send, whose receive wasn't reported, brought the token of a send or
    /// print.
    Message(Item),
    /// Its process made the token, or set its label; it had taken this token last.
    Begins(Option<Item>),
    /// One of two, and there may be more: a receive, or the send of a message whose receive wasn't
    /// reported, or the process itself.
    Either(Option<Item>, Option<Item>),
    /// Something moved the counters of its process after this event of it, and nothing that was
    /// reported tells what.
    Moved(Option<Item>),
    /// Nothing is known: the event is a send that only its receive tells of, or one that the
    /// completion adds.
    Unknown,
}

impl Cause {
    fn of(hop: NodeHop, (pid, index): Place) -> Cause {
        let own = |index| Item::Reported(pid, index);
        match hop {
            NodeHop::Sent(from, index) => Cause::After(Item::Reported(from, index)),
            NodeHop::Unsent => Cause::After(Item::Hidden(pid, index)),
            NodeHop::After(index) => Cause::After(own(index)),
            NodeHop::OtherLabel(index, _) => Cause::Begins(Some(own(index))),
            NodeHop::Begins => Cause::Begins(None),
            NodeHop::Moved(before) => Cause::Moved(before.checked_sub(1).map(own)),
        }
    }

    /// Returns the same of other items.
    fn map(self, with: impl Fn(Item) -> Item) -> Cause {
        match self {
            Cause::After(item) => Cause::After(with(item)),
            Cause::Message(send) => Cause::Message(with(send)),
            Cause::Begins(had) => Cause::Begins(had.map(with)),
            Cause::Either(one, other) => Cause::Either(one.map(&with), other.map(&with)),
            Cause::Moved(since) => Cause::Moved(since.map(with)),
            Cause::Unknown => Cause::Unknown,
        }
    }

    /// Returns whether the event follows something that wasn't reported, or may do so.
    pub(crate) fn is_open(self) -> bool {
        matches!(self, Cause::After(Item::Hidden(..)) | Cause::Moved(_))
    }
}

#[derive(Clone, Copy, Debug, PartialEq, Eq)]
pub(crate) struct Link {
    pub(crate) cause: Cause,
    pub(crate) grade: Grade,
    /// The event of its process since which its counters were moved unseen, or the beginning, if
    /// its counts show that. Its tokens may tell the cause nevertheless.
    pub(crate) moved: Option<Option<Item>>,
    /// Tells whether no known token can have given it. Where one can, it may rather have been put
    /// back than a receive not reported.
    lacks_token: bool,
}

impl Link {
    const UNKNOWN: Link =
        Link { cause: Cause::Unknown, grade: Grade::Certain, moved: None, lacks_token: false };

    fn of(hop: NodeHop, place: Place) -> Link {
        let hop = if is_sent_later(hop, place) { NodeHop::Unsent } else { hop };
        let cause = Cause::of(hop, place);
        let moved = match cause {
            Cause::Moved(since) => Some(since),
            _ => None,
        };
        Link { cause, grade: Grade::of(hop), moved, lacks_token: false }
    }

    /// Returns this link as the messages to its process tell it, if they do.
    fn by_messages(self, found: Found) -> Link {
        let item = |source| match source {
            Source::Home => None,
            Source::Message((pid, index)) => Some(Item::Reported(pid, index)),
        };
        let cause = match found.sources {
            Sources::Unknown => return self,
            Sources::One(source) => item(source).map_or(Cause::Begins(None), Cause::Message),
            Sources::Several(one, other) => Cause::Either(item(one), item(other)),
        };
        let grade = match found.label_use {
            LabelUse::Begun => NO_MESSAGE,
            LabelUse::Own => OWN_LABEL,
            LabelUse::Received => LABEL_RECEIVED,
        };
        Link { cause, grade, ..self }
    }

    /// Links a receive that has no reported send to its process left to the sends to unknown aliases
    /// and names that may be its own.
    fn by_strays(self, strays: &[Place]) -> Link {
        let item = |&(pid, index): &Place| Item::Reported(pid, index);
        match strays {
            [] => self,
            [one] => Link { cause: Cause::After(item(one)), grade: SENDS_REPORTED, ..self },
            [one, other, ..] => {
                Link { cause: Cause::Either(Some(item(one)), Some(item(other))), ..self }
            }
        }
    }

    /// Returns the receive that a send or print follows, or the send of a receive.
    pub(crate) fn after(self) -> Option<Item> {
        match self.cause {
            Cause::After(item) => Some(item),
            _ => None,
        }
    }

    /// Returns the event that it follows: where the receive between wasn't reported, the send.
    pub(crate) fn follows(self) -> Option<Item> {
        match self.cause {
            Cause::After(item) | Cause::Message(item) => Some(item),
            _ => None,
        }
    }
}

/// Returns whether the send of a receive comes after it in the stream of one process. Then one like
/// it came before and wasn't reported: only this process sends such messages to itself.
fn is_sent_later(hop: NodeHop, (pid, index): Place) -> bool {
    matches!(hop, NodeHop::Sent(from, sent) if from == pid && sent > index)
}

/// Finds the receives that answer a spawn, in the order of the text. The messages tell it, so
/// without names there are none.
pub(crate) fn answers(trace: &Trace, names: &Names) -> Vec<Place> {
    let own = |(pid, events): (Pid, &[Event])| {
        let pairs = events.windows(2).zip(1..);
        let own = pairs.filter(|(pair, _)| is_answer(names, &pair[0], &pair[1]));
        own.map(|(_, index)| (pid, index)).collect::<Vec<_>>()
    };
    trace.processes().filter(|_| names.has_terms()).flat_map(own).collect()
}

/// Returns whether an event is the answer for which a spawn waited, right after the request.
fn is_answer(names: &Names, request: &Event, answer: &Event) -> bool {
    answer.kind == Kind::Receive
        && request.kind == Kind::Send
        && request.to == Some(answer.from)
        && !names.are_on_different_nodes(request.from, answer.from)
        && names.is_spawned(answer.value)
        && !names.is_spawn_request(request.value)
}

fn is_answer_at(trace: &Trace, names: &Names, (pid, index): Place) -> bool {
    let event = |index| trace.streams().event(pid, index);
    let request = index.checked_sub(1).and_then(event);
    let pair = request.zip(event(index));
    pair.is_some_and(|(request, answer)| is_answer(names, &request, &answer))
}

/// The causes of the events of a trace, by what was reported alone. Those of a process are found
/// when one of them is first asked for.
pub(crate) struct Links<'a> {
    trace: &'a Trace,
    is_answer: Box<dyn Fn(Place) -> bool + 'a>,
    hops: ProcessHops<'a>,
    /// The messages, if no receive was reported.
    messages: Option<Messages<'a>>,
    names: &'a Names,
    strays: OnceCell<Strays>,
    tokens: OnceCell<HashSet<(u32, u64, u64)>>,
    found: RefCell<HashMap<Pid, Vec<Link>>>,
}

impl<'a> Links<'a> {
    pub(crate) fn of(
        trace: &'a Trace,
        names: &'a Names,
        is_answer: impl Fn(Place) -> bool + 'a,
    ) -> Result<Links<'a>, OutOfMemory> {
        let (hops, messages) = (ProcessHops::of(trace.streams())?, Messages::of(trace, names));
        let (is_answer, strays, tokens) = (Box::new(is_answer), OnceCell::new(), OnceCell::new());
        let found = RefCell::default();
        Ok(Links { trace, is_answer, hops, messages, names, strays, tokens, found })
    }

    pub(crate) fn of_view(view: &View<'a>) -> Result<Links<'a>, OutOfMemory> {
        let View { trace, names, .. } = *view;
        Links::of(trace, names, move |place| is_answer_at(trace, names, place))
    }

    /// Returns whether each hop leads to an event that was reported, so that a completion adds
    /// nothing.
    fn are_closed(&self) -> Result<bool, OutOfMemory> {
        for (pid, _) in self.trace.processes() {
            if self.by_hops(pid)?.iter().any(|link| link.cause.is_open()) {
                return Ok(false);
            }
        }
        Ok(true)
    }

    fn by_hops(&self, pid: Pid) -> Result<Vec<Link>, OutOfMemory> {
        let events = self.trace.streams().events(pid).iter();
        let hops = self.hops.find(pid)?.into_iter().zip(events).zip(0..);
        Ok(hops.map(|((hop, event), index)| self.by_hop(hop, event, (pid, index))).collect())
    }

    fn by_hop(&self, hop: NodeHop, event: &Event, place: Place) -> Link {
        let link = Link::of(hop, place);
        match link.cause {
            Cause::After(Item::Hidden(..)) => {
                let strays = self.strays.get_or_init(|| Strays::of(self.trace, self.names));
                link.by_strays(strays.alike(event))
            }
            _ => link,
        }
    }

    fn of_process(&self, pid: Pid) -> Result<Vec<Link>, OutOfMemory> {
        let mut links = self.by_hops(pid)?;
        let events = self.trace.streams().events(pid);
        Tokens::refine(pid, events, |index| (self.is_answer)((pid, index)), &mut links)?;
        if links.iter().any(|link| matches!(link.cause, Cause::Moved(_))) {
            self.note_lacks(events, &mut links);
        }
        for found in self.messages.iter().flat_map(|messages| messages.found(pid)) {
            if let Some(link) = links.get_mut(found.index as usize) {
                *link = link.by_messages(found);
            }
        }
        Ok(links)
    }

    /// Notes which sends and prints no known token can have given. Their process can have had their
    /// prev as its last by no event before (0, an earlier prev, the count of a receive, or what the
    /// answer of a spawn leaves), and no process had the token that they succeed.
    fn note_lacks(&self, events: &[Event], links: &mut [Link]) {
        let mut lasts = HashSet::from([0]);
        let mut row = None;
        for (event, link) in events.iter().zip(links) {
            let Serial { prev, this } = event.serial;
            if event.kind == Kind::Receive {
                lasts.extend([prev, this, last_of_answer(this)]);
                row = None;
                continue;
            }
            let is_new = lasts.insert(prev);
            link.lacks_token = match row {
                Some((of_row, lacks_token)) if of_row == prev => lacks_token,
                _ => is_new && !self.tokens().contains(&(event.label.0, prev, before(this))),
            };
            row = Some((prev, link.lacks_token));
        }
    }

    /// Returns the label, prev and count of each token that the events show.
    fn tokens(&self) -> &HashSet<(u32, u64, u64)> {
        self.tokens.get_or_init(|| {
            let events = self.trace.events();
            let tokens = events.map(|(_, it)| (it.label.0, it.serial.prev, it.serial.this));
            tokens.collect()
        })
    }

    /// Returns the link of the event at this place. If memory runs out, the program ends, as it
    /// does where a list of its own grows.
    fn get(&self, (pid, index): Place) -> Link {
        let mut found = self.found.borrow_mut();
        let own = found.entry(pid).or_insert_with(|| {
            self.of_process(pid).unwrap_or_else(|_| handle_alloc_error(Layout::new::<Link>()))
        });
        own.get(index as usize).copied().unwrap_or(Link::UNKNOWN)
    }
}

/// The tokens of one process, as far as they are known.
struct Tokens {
    origins: Origins,
    /// The receive that took a token last.
    last: Option<Item>,
    /// Tells whether a token was put back since, as counts show.
    is_put_back: bool,
    /// Tells whether something else gave a token since: no run then meets the premises of origins.
    is_lost: bool,
}

impl Tokens {
    /// Replaces the links of events that the tokens of their process tell more of.
    fn refine(
        pid: Pid,
        events: &[Event],
        is_answer: impl Fn(u64) -> bool,
        links: &mut [Link],
    ) -> Result<(), OutOfMemory> {
        let is_moved = links.iter().any(|link| matches!(link.cause, Cause::Moved(_)));
        let is_put_back = |ways: &[Way]| ways.iter().any(|way| matches!(way, Way::PutBack(_)));
        let are_needed = |ways: &[Way]| is_moved || is_put_back(ways);
        let Some(origins) = Origins::of(events, &is_answer, are_needed)? else { return Ok(()) };
        let mut tokens = Tokens { origins, last: None, is_put_back: false, is_lost: false };
        for ((event, link), index) in events.iter().zip(links).zip(0..) {
            tokens.note((pid, index), event.kind, is_answer(index));
            *link = tokens.link((pid, index), *link);
        }
        Ok(())
    }

    fn note(&mut self, (pid, index): Place, kind: Kind, is_answer: bool) {
        if kind != Kind::Receive {
            let way = self.origins.ways.get(index as usize);
            self.is_put_back |= matches!(way, Some(Way::PutBack(_)));
            self.is_lost |= way == Some(&Way::Ungiven);
        } else if !is_answer {
            self.last = Some(Item::Reported(pid, index));
            (self.is_put_back, self.is_lost) = (false, false);
        }
    }

    /// Returns the link of an event whose hop makes this link. The premises of a hop don't hold
    /// where a token was put back.
    fn link(&self, place: Place, own: Link) -> Link {
        let is_asked = self.is_put_back || matches!(own.cause, Cause::Moved(_));
        let cause = if is_asked { self.cause(place) } else { None };
        // An answer that moved them is an event.
        let moved = own.moved.filter(|_| self.is_put_back);
        cause.map_or(own, |cause| Link { cause, grade: OWN_TOKENS, moved, ..own })
    }

    /// Returns the cause of a send or print, if the tokens that its process had tell it.
    fn cause(&self, (pid, index): Place) -> Option<Cause> {
        let receive = |origin| match origin {
            StampOrigin::Home => None,
            StampOrigin::Follows(index) => Some(Item::Reported(pid, index as u64)),
        };
        match *self.origins.events.get(index as usize)? {
            _ if self.is_lost => None,
            EventOrigins::Receive | EventOrigins::Unknown => None,
            EventOrigins::One(origin) => {
                Some(receive(origin).map_or(Cause::Begins(self.last), Cause::After))
            }
            EventOrigins::Several(one, other) => Some(Cause::Either(receive(one), receive(other))),
        }
    }
}

/// The causes of a trace's events, with those of the completed trace where what was reported stops.
pub(crate) struct Causes<'a> {
    shown: Shown<'a>,
    links: &'a Links<'a>,
    never: Option<(Pid, u64, Never)>,
    /// The pairs of all events that are shown, if they were asked for.
    paired: Option<&'a Paired<'a>>,
    /// The hops of all events, if a completion adds some.
    completed: Option<NodeHops<'a>>,
}

/// Does something with the causes of a trace, unless its events can't be paired. Those of its own
/// events alone are taken if no run reports the trace, or if they are all that an event follows.
pub(crate) fn with_causes<T>(
    view: &View<'_>,
    links: &Links<'_>,
    run: impl FnOnce(&Causes<'_>) -> Result<T, Failure>,
) -> Result<T, Failure> {
    let paired = paired(view)?;
    let own = Causes::paired(view, links, &paired)?;
    if own.never.is_some() || links.are_closed()? {
        return run(&own);
    }
    let completion = match gemshowal::complete(view.trace)? {
        Answer::Whole(completion) if completion.added() > 0 => completion,
        _ => return run(&own),
    };
    let Some(all) = Paired::if_possible(completion.streams())? else { return run(&own) };
    let completed = Some(NodeHops::of(completion.streams())?);
    let shown = Shown::completed(view, &completion);
    run(&Causes { shown, paired: Some(&all), completed, ..own })
}

/// Does something with the causes of a trace. If no run without a reset reports it, that is done
/// for each part between which resets may have been, with the number of the part and how many there
/// are. If there are none, or one can't be paired, it is done for the whole, unless that can't be.
pub(crate) fn with_each<T>(
    whole: &View<'_>,
    mut run: impl FnMut(&Causes<'_>, Option<(usize, usize)>) -> Result<T, Failure>,
) -> Result<Vec<T>, Failure> {
    let links = Links::of_view(whole)?;
    let done = with_causes(whole, &links, |causes| match causes.never() {
        None => run(causes, None).map(Some),
        Some(_) => Ok(None),
    });
    match done {
        Ok(Some(done)) => return Ok(vec![done]),
        Ok(None) | Err(Failure::Never(_)) => {}
        Err(failure) => return Err(failure),
    }
    let parts = audit::parts(whole)?;
    if !are_paired(&parts)? {
        return with_causes(whole, &links, |causes| Ok(vec![run(causes, None)?]));
    }
    let mut all = Vec::new();
    for ((kept, part), which) in parts.iter().zip(1..) {
        let view = whole.part(part, kept, false);
        let run = |causes: &Causes<'_>| run(causes, Some((which, parts.len())));
        all.push(with_causes(&view, &Links::of_view(&view)?, run)?);
    }
    Ok(all)
}

fn are_paired(parts: &[(Kept, Trace)]) -> Result<bool, OutOfMemory> {
    for (_, part) in parts {
        if Paired::if_possible(part.streams())?.is_none() {
            return Ok(false);
        }
    }
    Ok(!parts.is_empty())
}

impl<'a> Causes<'a> {
    /// Returns the causes of a trace's own events, which needn't have pairs.
    pub(crate) fn alone(view: &'a View<'a>, links: &'a Links<'a>) -> Causes<'a> {
        let shown = Shown::reported(view);
        Causes { shown, links, never: None, paired: None, completed: None }
    }

    pub(crate) fn paired(
        view: &'a View<'a>,
        links: &'a Links<'a>,
        paired: &'a Paired<'a>,
    ) -> Result<Causes<'a>, OutOfMemory> {
        let never = paired.refusal()?;
        Ok(Causes { never, paired: Some(paired), ..Causes::alone(view, links) })
    }

    /// Says why no run without a reset reports the trace, if none does and there are pairs.
    pub(crate) fn never(&self) -> Option<(Pid, u64, Never)> {
        self.never
    }

    /// Returns the events that are shown, by process.
    pub(crate) fn items(&self) -> impl Iterator<Item = Item> + '_ {
        let own =
            |(pid, events): (Pid, &[Event])| (0..events.len() as u64).map(move |at| (pid, at));
        self.shown.processes().flat_map(own).map(|(pid, index)| Item::Reported(pid, index))
    }

    /// Returns the events that are shown, each after its cause if a run of the manual's machine has
    /// the trace. Without pairs there are none.
    pub(crate) fn ordered(&self) -> Result<Vec<(Item, Event)>, OutOfMemory> {
        let Some(paired) = self.paired else { return Ok(Vec::new()) };
        let with_event = |item| Some((item, self.event(item)?));
        Ok(paired.order()?.into_iter().filter_map(with_event).collect())
    }

    /// Returns the item of the event with this place in the whole trace, if it is here.
    pub(crate) fn item_at(&self, (pid, number): Place) -> Option<Item> {
        Some(self.shown_item((pid, self.view().index(pid, number)?)))
    }

    fn shown_item(&self, (pid, index): Place) -> Item {
        let told = self.shown.told(pid).get(index as usize).copied();
        Item::Reported(pid, told.unwrap_or(index))
    }

    /// Returns the place in the whole trace of an event that was reported.
    pub(crate) fn place(&self, item: Item) -> Option<Place> {
        let (pid, index) = self.reported(item)?;
        Some((pid, self.view().number(pid, index)))
    }

    pub(crate) fn reported(&self, item: Item) -> Option<Place> {
        match (item, &self.completed) {
            (Item::Hidden(..), _) => None,
            (Item::Reported(pid, index), None) => Some((pid, index)),
            (Item::Reported(pid, index), Some(_)) => {
                let place = self.shown.told(pid).binary_search(&index).ok()?;
                Some((pid, place as u64))
            }
        }
    }

    /// Returns an event that is shown; of a hidden send, what its receive tells. Returns `None` if
    /// there is none.
    pub(crate) fn event(&self, item: Item) -> Option<Event> {
        let (pid, index) = item.place();
        let event = self.shown.streams.event(pid, index)?;
        Some(match item {
            Item::Reported(..) => event,
            Item::Hidden(..) => Event { kind: Kind::Send, ..event },
        })
    }

    /// Returns the message of an event as its value, or `None` if neither end was reported.
    pub(crate) fn message(&self, item: Item) -> Option<u64> {
        let is_reported = |item| self.reported(item).is_some();
        let is_known = matches!(item, Item::Hidden(..))
            || is_reported(item)
            || self.other_end(item).is_some_and(is_reported);
        self.event(item).filter(|_| is_known).map(|event| event.value)
    }

    /// Returns the other end of the message of an event, if that is shown too.
    pub(crate) fn other_end(&self, item: Item) -> Option<Item> {
        let (pid, index) = item.place();
        match (item, self.partner((pid, index), self.event(item)?.kind)) {
            (Item::Hidden(..), _) => Some(Item::Reported(pid, index)),
            (_, Partner::Send(pid, index) | Partner::Receive(pid, index)) => {
                Some(Item::Reported(pid, index))
            }
            (_, Partner::NoSend) => Some(Item::Hidden(pid, index)),
            (_, Partner::Nobody | Partner::NoReceive) => None,
        }
    }

    /// Returns what the event of this kind at this place among those that are shown pairs with.
    pub(crate) fn partner(&self, place: Place, kind: Kind) -> Partner {
        self.paired.map_or(Partner::Nobody, |paired| paired.partner(place, kind))
    }

    /// Returns what an event follows. If that wasn't reported, and the completion adds it, it is
    /// certain of a send, whose receive was reported.
    pub(crate) fn link(&self, item: Item) -> Link {
        let Some(place) = self.reported(item) else {
            let cause = self.completed_cause(item);
            let link = |cause| Link { cause, grade: Grade::Perhaps, ..Link::UNKNOWN };
            return cause.map_or(Link::UNKNOWN, link);
        };
        let own = self.links.get(place);
        let moved = own.moved.map(|since| since.map(|item| self.in_shown(item)));
        let own = Link { moved, ..own };
        let is_send = matches!(own.cause, Cause::After(_));
        match self.completed_cause(item).filter(|_| own.cause.is_open()) {
            Some(cause @ Cause::After(_)) if is_send => Link { cause, ..own },
            Some(cause @ Cause::After(_)) if own.lacks_token => {
                Link { cause, grade: Grade::Perhaps, ..own }
            }
            _ => Link { cause: own.cause.map(|item| self.in_shown(item)), ..own },
        }
    }

    /// Returns whether the completion has a receive where a known token may have been put back: then
    /// the send or print after it isn't said to follow it.
    pub(crate) fn may_have_put_back(&self) -> bool {
        let is_stamp = |item| self.event(item).is_some_and(|event| event.kind != Kind::Receive);
        let is_added = |item| self.reported(item).is_none();
        let follows_added =
            |item| matches!(self.completed_cause(item), Some(Cause::After(it)) if is_added(it));
        let stamps = self.items().filter(|&item| is_stamp(item) && !is_added(item));
        let mut after_added = stamps.filter(|&item| follows_added(item));
        // If no receive was reported, it is none that asks for an explanation.
        let has_receives = self.links.messages.is_none();
        has_receives && after_added.any(|item| self.link(item).grade != Grade::Perhaps)
    }

    /// Returns what an event follows in the completed trace.
    fn completed_cause(&self, item: Item) -> Option<Cause> {
        let Item::Reported(pid, index) = item else { return None };
        let hop = self.completed.as_ref()?.hop((pid, index), &self.event(item)?);
        Some(match hop {
            NodeHop::Unsent | NodeHop::Moved(_) => Cause::Unknown,
            hop => Cause::of(hop, (pid, index)),
        })
    }

    /// Returns the item here of one of the trace's own streams.
    fn in_shown(&self, item: Item) -> Item {
        match (item, self.shown_item(item.place())) {
            (Item::Hidden(..), Item::Reported(pid, index)) => Item::Hidden(pid, index),
            (_, shown) => shown,
        }
    }

    pub(crate) fn actor(&self, item: Item) -> Pid {
        match item {
            Item::Reported(pid, _) => pid,
            Item::Hidden(pid, _) => self.event(item).map_or(pid, |event| event.from),
        }
    }

    pub(crate) fn name(&self, item: Item) -> String {
        match item {
            Item::Hidden(pid, index) => {
                format!("the send of {}", self.name(Item::Reported(pid, index)))
            }
            Item::Reported(pid, index) => self.shown.event((pid, index)),
        }
    }

    /// Returns the number of an event in its name; a hidden send has none.
    pub(crate) fn number(&self, item: Item) -> String {
        match item {
            Item::Hidden(..) => String::new(),
            Item::Reported(pid, index) => self.shown.number((pid, index)),
        }
    }

    pub(crate) fn is_unlisted(&self, pid: Pid) -> bool {
        self.shown.stranger(pid).is_some()
    }

    pub(crate) fn process(&self, pid: Pid) -> Cow<'_, str> {
        self.shown.process(pid)
    }

    pub(crate) fn names(&self) -> &'a Names {
        self.view().names
    }

    pub(crate) fn trace(&self) -> &'a Trace {
        self.view().trace
    }

    pub(crate) fn view(&self) -> &'a View<'a> {
        self.shown.view
    }
}
