//! Which send each receive's message came from, and the order of all events.

use crate::bundle::{Event, Kind, Place, Streams};
use std::collections::HashMap;

/// An event by its process and its place in the stream.
#[derive(Clone, Copy, PartialEq, Eq, PartialOrd, Ord, Hash)]
pub struct At {
    pub process: Place,
    pub index: u32,
}

/// Why streams have no pairs: the word, the event, and the other event if there is one.
pub struct Unfit {
    pub word: &'static str,
    pub at: At,
    pub other: Option<At>,
}

/// Where each receive's send is, by process and index: `HIDDEN` of a receive whose send wasn't reported.
pub struct Pairs {
    pub sources: Vec<Vec<At>>,
    /// For each event whether a receive is paired with it.
    pub is_received: Vec<Vec<bool>>,
}

pub const HIDDEN: At = At { process: Place::MAX, index: 0 };

fn places(events: &[Vec<Event>]) -> impl Iterator<Item = (At, &Event)> {
    events.iter().enumerate().flat_map(|(process, stream)| {
        let at = move |index| At { process: process as Place, index: index as u32 };
        stream.iter().enumerate().map(move |(index, event)| (at(index), event))
    })
}

fn unfit(word: &'static str, at: At, other: Option<At>) -> Unfit {
    Unfit { word, at, other }
}

fn are_before(events: &[Vec<Event>]) -> Result<(), Unfit> {
    let wrong = places(events).find(|(_, event)| event.prev >= event.this);
    wrong.map_or(Ok(()), |(at, _)| Err(unfit("prevnotbefore", at, None)))
}

/// The stamps (sends and prints) of each process, which rise: their counts and indexes.
fn stamps(events: &[Vec<Event>]) -> Result<Vec<Vec<(u64, u32)>>, Unfit> {
    let mut all: Vec<Vec<(u64, u32)>> = events.iter().map(|stream| Vec::with_capacity(stream.len())).collect();
    for (at, event) in places(events).filter(|(_, event)| event.kind != Kind::Receive) {
        let own = &mut all[at.process as usize];
        if let Some(&(this, index)) = own.last().filter(|(this, _)| *this >= event.this) {
            let _ = this;
            return Err(unfit("notrising", at, Some(At { index, ..at })));
        }
        own.push((event.this, at.index));
    }
    Ok(all)
}

/// The stamp's place among the counts, which rise; near `guess` most times.
fn find(stamps: &[(u64, u32)], this: u64, guess: &mut usize) -> Option<u32> {
    let next = *guess;
    if stamps.get(next).is_some_and(|stamp| stamp.0 == this) {
        *guess = next + 1;
        return Some(stamps[next].1);
    }
    let found = stamps.binary_search_by_key(&this, |stamp| stamp.0).ok()?;
    *guess = found + 1;
    Some(stamps[found].1)
}

pub fn pair(streams: &Streams) -> Result<Pairs, Unfit> {
    let events = &streams.events;
    are_before(events)?;
    let stamps = stamps(events)?;
    let mut sources: Vec<Vec<At>> = events.iter().map(|stream| vec![HIDDEN; stream.len()]).collect();
    let mut takers: Vec<Vec<At>> = sources.clone();
    let mut hidden: HashMap<(Place, u64), At> = HashMap::new();
    let mut guesses = vec![0; events.len()];
    for (at, event) in places(events).filter(|(_, event)| event.kind == Kind::Receive) {
        let sender = streams.pids.place(event.from).unwrap_or(Place::MAX);
        let earlier = match find(&stamps[sender as usize], event.this, &mut guesses[sender as usize]) {
            Some(index) => {
                sources[at.process as usize][at.index as usize] = At { process: sender, index };
                let taker = &mut takers[sender as usize][index as usize];
                std::mem::replace(taker, if *taker == HIDDEN { at } else { *taker })
            }
            None => *hidden.entry((sender, event.this)).or_insert(at),
        };
        if earlier != HIDDEN && earlier != at {
            return Err(unfit("repeated", at, Some(earlier)));
        }
    }
    for (at, event) in places(events).filter(|(_, event)| event.kind == Kind::Receive) {
        let sent = sources[at.process as usize][at.index as usize];
        let wanted = Event { kind: Kind::Send, ..*event };
        if sent != HIDDEN && events[sent.process as usize][sent.index as usize] != wanted {
            return Err(unfit("mismatch", at, Some(sent)));
        }
    }
    let is_received = takers.iter().map(|own| own.iter().map(|&taker| taker != HIDDEN).collect()).collect();
    Ok(Pairs { sources, is_received })
}

/// An event, or the unreported send of a receive, which is named by that receive.
#[derive(Clone, Copy)]
pub struct Item {
    height: u64,
    rank: u64,
    pub at: At,
    pub is_hidden: bool,
}

impl Item {
    pub fn event(&self, events: &[Vec<Event>]) -> Event {
        let event = events[self.at.process as usize][self.at.index as usize];
        if self.is_hidden { Event { kind: Kind::Send, ..event } } else { event }
    }
}

/// All events and hidden sends: by height, sends and prints before receives, by pid and index.
pub fn order(streams: &Streams, pairs: &Pairs) -> Vec<Item> {
    let rank = |is_receive: bool, process: Place, index: u64| {
        u64::from(is_receive) << 63 | u64::from(process) << 32 | index
    };
    let mut items = Vec::with_capacity(streams.events.iter().map(Vec::len).sum());
    for (process, stream) in streams.events.iter().enumerate() {
        let mut height = 0;
        for (index, event) in stream.iter().enumerate() {
            height = height.max(event.this);
            let at = At { process: process as Place, index: index as u32 };
            let is_receive = event.kind == Kind::Receive;
            let rank_of_event = rank(is_receive, at.process, index as u64 + 1);
            items.push(Item { height, rank: rank_of_event, at, is_hidden: false });
            if is_receive && pairs.sources[process][index] == HIDDEN {
                let sender = streams.pids.place(event.from).unwrap_or(Place::MAX);
                items.push(Item { height: event.this, rank: rank(false, sender, 0), at, is_hidden: true });
            }
        }
    }
    items.sort_by_key(|item| (item.height, item.rank));
    items
}
