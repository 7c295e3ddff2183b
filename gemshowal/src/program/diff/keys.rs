//! Keys of processes: two processes of two traces that a renaming may exchange have equal ones. The
//! first keys tell the own events; each further one takes in those of the processes at the other
//! ends of messages. A key is a hash, so two others may be equal by chance.

use super::matching::Ground;
use super::side::{Side, NOBODY};
use gemshowal::{Event, Serial};
use std::collections::HashSet;

/// The number of hops that a key looks beyond the process.
const HOPS: usize = 4;

/// The keys of two traces' processes, those that tell most first, each with its ground.
pub(super) type Keys = Vec<(Ground, [Vec<u64>; 2])>;

/// Mixes two numbers into one, by SplitMix64.
fn mix(one: u64, other: u64) -> u64 {
    let mut mixed = one.rotate_left(23).wrapping_mul(0x9E37_79B9_7F4A_7C15) ^ other;
    mixed = (mixed ^ (mixed >> 30)).wrapping_mul(0xBF58_476D_1CE4_E5B9);
    mixed = (mixed ^ (mixed >> 27)).wrapping_mul(0x94D0_49BB_1331_11EB);
    mixed ^ (mixed >> 31)
}

/// The counts of a trace, sorted.
#[derive(Debug, PartialEq, Eq)]
pub(super) struct Ranks(Vec<u64>);

impl Ranks {
    pub(super) fn of(side: &Side<'_>) -> Ranks {
        let events = (0..side.len()).flat_map(|place| side.events(place));
        let mut counts: Vec<u64> =
            events.flat_map(|event| [event.serial.prev, event.serial.this]).collect();
        counts.sort_unstable();
        counts.dedup();
        Ranks(counts)
    }

    pub(super) fn of_serial(&self, serial: Serial) -> [u64; 2] {
        [serial.prev, serial.this].map(|count| {
            // In a trace that begins anew a count is its own rank.
            match self.0.get(count as usize) {
                Some(&own) if own == count => count,
                _ => self.0.partition_point(|&other| other < count) as u64,
            }
        })
    }
}

/// Returns all keys, with the ranks of counts if these are given. Once each process is told apart,
/// keys look no further.
pub(super) fn all_keys(sides: [&Side<'_>; 2], ranks: Option<&[Ranks; 2]>) -> Keys {
    let own = [0, 1].map(|it| own_keys(sides[it], ranks.map(|ranks| &ranks[it])));
    let further = |keys: &[Vec<u64>; 2]| {
        let are_apart = |keys: &Vec<u64>| keys.iter().collect::<HashSet<_>>().len() == keys.len();
        let refined = || [refined(sides[0], &keys[0]), refined(sides[1], &keys[1])];
        (!keys.iter().all(are_apart)).then(refined)
    };
    let hops = std::iter::successors(Some(own), further);
    let mut keys: Keys = hops.take(1 + HOPS).map(|keys| (Ground::Events, keys)).collect();
    keys.reverse();
    let kind = |key, event: &Event| mix(key, event.kind as u64);
    let of_all = |key: &dyn Fn(&Side<'_>, usize) -> u64| {
        sides.map(|side| (0..side.len()).map(|place| key(side, place)).collect())
    };
    let kinds = of_all(&|side, place| side.events(place).iter().fold(1, kind));
    let first = of_all(&|side, place| side.items[place].first().map_or(0, |&item| item.into()));
    let first_kind =
        of_all(&|side, place| side.events(place).first().map_or(0, |it| it.kind as u64));
    keys.extend([(Ground::Kinds, kinds), (Ground::First, first), (Ground::FirstKind, first_kind)]);
    keys
}

/// Returns the keys of processes by their own events: they tell which of them have the same process
/// at the other end, but not yet which process.
fn own_keys(side: &Side<'_>, ranks: Option<&Ranks>) -> Vec<u64> {
    // Keeps for each process the last one whose events name it, and the first event that does.
    let mut named = vec![(NOBODY, 0); side.len()];
    let key = |place: usize| {
        let events = side.events(place).iter().zip(&side.items[place]).zip(&side.peers[place]);
        (0..).zip(events).fold(0, |key, (index, ((event, &item), &peer))| {
            let ranks = ranks.map_or([0, 0], |ranks| ranks.of_serial(event.serial));
            let key = [item.into(), ranks[0], ranks[1]].into_iter().fold(key, mix);
            let Some((by, first)) = named.get_mut(peer as usize) else { return key };
            if *by != place as u32 {
                (*by, *first) = (place as u32, index);
            }
            mix(key, 2 * *first + u64::from(peer as usize == place))
        })
    };
    (0..side.len()).map(key).collect()
}

fn refined(side: &Side<'_>, keys: &[u64]) -> Vec<u64> {
    let mut told = vec![0_u64; keys.len()];
    let mut next = keys.to_vec();
    for (place, &key) in keys.iter().enumerate() {
        for (index, &peer) in side.peers[place].iter().enumerate() {
            if let Some(&of_peer) = keys.get(peer as usize) {
                told[peer as usize] = told[peer as usize].wrapping_add(mix(key, index as u64));
                next[place] = mix(next[place], of_peer);
            }
        }
    }
    next.into_iter().zip(told).map(|(own, told)| mix(own, told)).collect()
}

/// Returns whether two traces have the same keys, as far as the keys look.
pub(super) fn are_alike(keys: &Keys) -> bool {
    let [ones, others] = keys[0].1.each_ref().map(|keys| {
        let mut sorted = keys.clone();
        sorted.sort_unstable();
        sorted
    });
    ones == others
}
