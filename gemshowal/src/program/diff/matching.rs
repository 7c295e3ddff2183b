//! The matching of two traces' processes by the part that they play.
//!
//! Those come first that are called alike, if that is wanted; then those that no other process is
//! like, from all events to the first one; then several that are like each other, in the order in
//! which they first report something. The processes at the other ends of messages that are alike
//! are matched as soon as both ends of one are, so that of alike workers each is the one that the
//! same message went to.

use super::align::{align, Budget};
use super::keys::Keys;
use super::side::{term, Side, NOBODY};
use crate::names::Names;
use serde::Serialize;
use std::collections::{HashMap, VecDeque};

/// Finds the processes that are called alike: by one name, and then by one pid.
pub(super) fn called_alike(sides: [&Side<'_>; 2], names: Option<[&Names; 2]>) -> Vec<Pair> {
    let mut mates = Vec::new();
    if let Some(names) = names {
        let [ones, others] = [0, 1].map(|it| by_name(sides[it], names[it]));
        let alike = ones.iter().filter_map(|(name, &one)| Some([one?, (*others.get(name)?)?]));
        mates.extend(alike.map(|places| Pair { places, ground: Ground::Name }));
        mates.sort_unstable_by_key(|mate| mate.places);
    }
    for (place, &pid) in sides[0].pids().iter().enumerate() {
        let is_other = |[one, other]: [&Names; 2]| one.process(pid) != other.process(pid);
        let other = sides[1].place_of(pid).filter(|_| !names.is_some_and(is_other));
        mates.extend(other.map(|other| Pair { places: [place, other], ground: Ground::Pid }));
    }
    mates
}

/// Returns the processes by their names, without the names that several have.
fn by_name<'a>(side: &Side<'_>, names: &'a Names) -> HashMap<&'a str, Option<usize>> {
    let mut found = HashMap::new();
    for (place, &pid) in side.pids().iter().enumerate() {
        // Processes without a name have their pid in its place.
        if let Some(name) = term(names.process(pid)).filter(|name| !name.starts_with('<')) {
            found.entry(name).and_modify(|place| *place = None).or_insert(Some(place));
        }
    }
    found
}

/// Matches the processes of two traces, these to begin with.
pub(super) fn by_keys(sides: [&Side<'_>; 2], mates: &[Pair], keys: &Keys) -> Pairs {
    let numbers = sides.map(|side| vec![NOBODY; side.len()]);
    let pairs = Pairs { all: Vec::new(), numbers };
    let (order, budget) = (sides.map(Side::order), Budget::of(sides));
    let mut search = Search { sides, order, pairs, followed: 0, budget };
    mates.iter().for_each(|&mate| search.pairs.add(mate));
    search.follow();
    for (ground, keys) in keys {
        search.match_only(keys, *ground);
    }
    for (ground, keys) in keys {
        let ground = if *ground == Ground::Events { Ground::Several } else { *ground };
        search.guess(keys, ground);
    }
    search.match_silent();
    search.pairs
}

/// The processes of a trace by their keys, in their order.
type Groups = HashMap<u64, VecDeque<usize>>;

struct Search<'a> {
    sides: [&'a Side<'a>; 2],
    /// The processes of each trace by when they first report something.
    order: [Vec<usize>; 2],
    pairs: Pairs,
    /// The number of pairs whose messages were followed.
    followed: usize,
    budget: Budget,
}

impl Search<'_> {
    /// Returns whether a process has no match, and reports something.
    fn is_open(&self, which: usize, place: usize) -> bool {
        self.pairs.is_free(which, place) && !self.sides[which].items[place].is_empty()
    }

    fn groups(&self, which: usize, keys: &[u64]) -> Groups {
        let mut groups = Groups::new();
        for &place in self.order[which].iter().filter(|&&place| self.is_open(which, place)) {
            groups.entry(keys[place]).or_default().push_back(place);
        }
        groups
    }

    fn match_only(&mut self, keys: &[Vec<u64>; 2], ground: Ground) {
        let groups = [0, 1].map(|it| self.groups(it, &keys[it]));
        for &place in &self.order[0] {
            let group = groups.each_ref().map(|groups| groups.get(&keys[0][place]));
            if let [Some(ones), Some(others)] = group {
                if ones.len() == 1 && others.len() == 1 {
                    self.pairs.add(Pair { places: [ones[0], others[0]], ground });
                }
            }
        }
        self.follow();
    }

    /// Matches processes of one key in the order of both, and follows the messages of each.
    fn guess(&mut self, keys: &[Vec<u64>; 2], ground: Ground) {
        let mut groups = self.groups(1, &keys[1]);
        for place in self.order[0].clone() {
            let Some(group) = groups.get_mut(&keys[0][place]) else { continue };
            while self.is_open(0, place) {
                let Some(other) = group.pop_front() else { break };
                self.pairs.add(Pair { places: [place, other], ground });
                self.follow();
            }
        }
    }

    /// Matches the processes that report nothing, and that no matched one tells of, in their order.
    fn match_silent(&mut self) {
        let silent = [0, 1].map(|which| {
            let (side, pairs) = (self.sides[which], &self.pairs);
            let is_silent =
                |&place: &usize| side.items[place].is_empty() && pairs.is_free(which, place);
            (0..side.len()).filter(is_silent).collect::<Vec<_>>()
        });
        for (&one, &other) in silent[0].iter().zip(&silent[1]) {
            self.pairs.add(Pair { places: [one, other], ground: Ground::Silent });
        }
    }

    /// Matches the processes at the other ends of the messages of pairs that weren't followed yet.
    /// A message to a process that is matched goes with one to its partner alone.
    fn follow(&mut self) {
        while let Some(&Pair { places, .. }) = self.pairs.all.get(self.followed) {
            self.followed += 1;
            let (sides, pairs) = (self.sides, &self.pairs);
            let items = |it: usize| {
                sides[it].items_with(places[it], |peer| pairs.number(it, peer as usize))
            };
            let [ones, others] = [0, 1].map(items);
            let peers = [0, 1].map(|it| &sides[it].peers[places[it]]);
            for run in align(&ones, &others, &mut self.budget).0 {
                let peers = peers[0][run.at[0]..].iter().zip(&peers[1][run.at[1]..]);
                for (&one, &other) in peers.take(run.len) {
                    if one != NOBODY && other != NOBODY {
                        let places = [one as usize, other as usize];
                        self.pairs.add(Pair { places, ground: Ground::Message });
                    }
                }
            }
        }
    }
}

/// Why two processes are taken for the same.
#[derive(Clone, Copy, Debug, PartialEq, Eq, Serialize)]
#[serde(rename_all = "snake_case")]
pub(super) enum Ground {
    /// One name, which no other process has.
    Name,
    Pid,
    /// All events alike, and those of no other process are.
    Events,
    /// All events alike, as those of others are; these two came first.
    Several,
    Message,
    Kinds,
    First,
    FirstKind,
    Silent,
}

impl Ground {
    /// Returns whether processes of different parts may well be matched on this ground.
    pub(super) fn is_guess(self) -> bool {
        !matches!(self, Ground::Name | Ground::Pid | Ground::Events)
    }

    pub(super) fn words(self) -> &'static str {
        match self {
            Ground::Name => "they have the same name",
            Ground::Pid => "they have the same pid",
            Ground::Events => "the kinds, labels and values of all their events are alike",
            Ground::Several => {
                "the kinds, labels and values of all their events are alike, as those of others are"
            }
            Ground::Message => "they are at the other ends of messages that are alike",
            Ground::Kinds => "the kinds of all their events are the same",
            Ground::First => "their first events are alike",
            Ground::FirstKind => "their first events have the same kind",
            Ground::Silent => "neither reports an event",
        }
    }
}

#[derive(Clone, Copy, Debug)]
pub(super) struct Pair {
    /// The places of a process of each trace.
    pub(super) places: [usize; 2],
    pub(super) ground: Ground,
}

pub(super) struct Pairs {
    pub(super) all: Vec<Pair>,
    /// For each process of the two traces the number of its pair in `all`, or `NOBODY`.
    numbers: [Vec<u32>; 2],
}

impl Pairs {
    pub(super) fn number(&self, which: usize, place: usize) -> u32 {
        self.numbers[which].get(place).copied().unwrap_or(NOBODY)
    }

    pub(super) fn is_free(&self, which: usize, place: usize) -> bool {
        self.number(which, place) == NOBODY
    }

    pub(super) fn of_first(&self, place: usize) -> Option<Pair> {
        self.all.get(self.number(0, place) as usize).copied()
    }

    /// Adds a pair, unless one of its processes is in another.
    fn add(&mut self, pair: Pair) {
        let [first, second] = pair.places;
        if self.is_free(0, first) && self.is_free(1, second) {
            let number = self.all.len() as u32;
            (self.numbers[0][first], self.numbers[1][second]) = (number, number);
            self.all.push(pair);
        }
    }
}
