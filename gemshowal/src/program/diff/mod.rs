//! The command `diff`: what is new, gone or elsewhere in another trace, up to pids and counts.
//!
//! `matching` finds which process of one trace plays the part of which in the other, by names,
//! pids, messages and `keys`. `align` pairs the events of two processes that are matched, and
//! `changes` has the others.

mod align;
mod changes;
mod keys;
mod matching;
mod report;
mod side;

use crate::input::Input;
use crate::{Ended, Status, Task};
use changes::Changes;
use keys::{all_keys, Keys, Ranks};
use matching::{Ground, Pair, Pairs};
use report::{Moved, Report, Text};
use side::{Side, Vocabulary};
use std::cell::LazyCell;

pub(crate) fn run(task: Task<'_>, mut other: Input) -> Ended {
    let Task { json, input, out, notes } = task;
    let ((first, ones), (second, others)) = (input.read(notes)?, other.read(notes)?);
    let has_terms = ones.has_terms() && others.has_terms();
    let events = first.streams().total() + second.streams().total();
    let mut vocabulary = Vocabulary::new(has_terms, events as usize);
    let sides = [(&first, &ones), (&second, &others)]
        .map(|(trace, names)| Side::new(trace, names, &mut vocabulary));
    drop(vocabulary);
    let sides = sides.each_ref();
    let names = has_terms.then_some([&ones, &others]);
    let found = compare(sides, &matching::called_alike(sides, names));
    let texts = [
        Text { name: input.line_name(), names: &ones, lines: first.lines()? },
        Text { name: other.line_name(), names: &others, lines: second.lines()? },
    ];
    let report = Report { sides, texts: &texts, found: &found };
    let (result, status) = match report.is_same() {
        true => ("same", Status::Yes),
        false => ("different", Status::No),
    };
    out.tell(json, result, &report)?;
    Ok(status)
}

struct Found {
    pairs: Pairs,
    changes: Changes,
    /// The first event whose counts moved, if the traces are alike but for their counts.
    moved: Option<Moved>,
    /// Tells whether no renaming makes the one trace of the other, whatever was guessed.
    is_certain: bool,
}

/// Compares two traces by the match that leaves fewest changes, of several the first: by keys that
/// tell the ranks of counts, by all processes that are called alike, by those alone that have one
/// name, or by none.
fn compare(sides: [&Side<'_>; 2], mates: &[Pair]) -> Found {
    let [first, second] = sides;
    let ranks = LazyCell::new(|| sides.map(Ranks::of));
    let has_one_size = first.len() == second.len() && first.total() == second.total();
    let with_ranks = has_one_size.then(|| all_keys(sides, Some(&ranks))).filter(keys::are_alike);
    let may_be_same = with_ranks.is_some();
    let found = |mates: &[Pair], keys: &Keys| {
        let pairs = matching::by_keys(sides, mates, keys);
        let changes = Changes::find(sides, &pairs);
        let has_changes = changes.len() > 0 || pairs.all.len() < first.len().max(second.len());
        let moved = if has_changes { None } else { Moved::find(sides, &ranks, &pairs) };
        Found { pairs, changes, moved, is_certain: !may_be_same }
    };
    let keys = LazyCell::new(|| all_keys(sides, None));
    let mut best = match &with_ranks {
        Some(with_ranks) => found(&[], with_ranks),
        None => found(mates, &keys),
    };
    let is_named = |mate: &&Pair| mate.ground == Ground::Name;
    let named: Vec<Pair> = mates.iter().filter(is_named).copied().collect();
    let least = changes::least(sides);
    for (mates, is_other) in
        [(mates, may_be_same), (&named, named.len() < mates.len()), (&[], !named.is_empty())]
    {
        if is_other && (best.changes.len() > least || may_be_same && best.moved.is_some()) {
            let next = found(mates, &keys);
            if next.cost() < best.cost() {
                best = next;
            }
        }
    }
    best
}

impl Found {
    fn cost(&self) -> (usize, usize) {
        (self.changes.len(), self.moved.map_or(0, |moved| moved.count))
    }
}
