//! A part of a trace to look at, by the conditions that its events meet.

use crate::args::Conditions;
use crate::view::{count, grouped, Kept, View};
use crate::Failure;
use gemshowal::{OutOfMemory, Paired, Partner, Pid};

/// Returns the events that are asked for, or `None` if all are.
pub(super) fn kept(conditions: &Conditions, view: &View<'_>) -> Result<Option<Kept>, Failure> {
    if conditions.are_none() {
        return Ok(None);
    }
    let kept = conditions.kept(view.trace, view.names)?;
    if kept.is_empty() {
        return Err(Failure::NothingLeft(count(view.trace.streams().total(), "event")));
    }
    Ok(Some(kept))
}

/// Says how many events a cut keeps, and which messages it cuts in two.
pub(super) fn note(view: &View<'_>, kept: &Kept) -> Result<String, OutOfMemory> {
    let number: usize = kept.values().map(Vec::len).sum();
    let of = count(view.trace.streams().total(), "event");
    let open = match open(view, kept)? {
        None => String::new(),
        Some([0, 0]) => "; the cut leaves nothing open".into(),
        Some([receives, sends]) => {
            let lacks = [(receives, "receive", "send"), (sends, "send", "receive")];
            let lacks = lacks.into_iter().filter(|(number, ..)| *number > 0);
            let said = lacks.map(|(number, end, other)| {
                format!("{} whose {other} was cut", count(number, end))
            });
            format!("; it leaves open {}", said.collect::<Vec<_>>().join(", "))
        }
    };
    Ok(format!("{} of {of}{open}", grouped(number as u64)))
}

/// Counts the receives and sends whose other end is cut off, if the trace can be paired.
fn open(view: &View<'_>, kept: &Kept) -> Result<Option<[u64; 2]>, OutOfMemory> {
    let Some(paired) = Paired::if_possible(view.trace.streams())? else { return Ok(None) };
    let is_all = |own: &Vec<u64>, index: u64| own.get(index as usize) == Some(&index);
    let is_cut = |pid: Pid, index: u64| {
        let own = kept.get(&pid);
        own.is_none_or(|own| !is_all(own, index) && own.binary_search(&index).is_err())
    };
    let mut open = [0, 0];
    for (&pid, own) in kept {
        let events = view.trace.streams().events(pid);
        for (index, event) in own.iter().filter_map(|&at| Some((at, events.get(at as usize)?))) {
            match paired.partner((pid, index), event.kind) {
                Partner::Send(pid, index) => open[0] += u64::from(is_cut(pid, index)),
                Partner::Receive(pid, index) => open[1] += u64::from(is_cut(pid, index)),
                _ => {}
            }
        }
    }
    Ok(Some(open))
}
