//! A run of a standard node as one of the manual's machine: each process is split where a token is
//! put back, and what is behind that is a process of its own, which begins there.

use super::walk::Run;
use crate::view::Place;
use gemshowal::{Answer, CompleteError, Event, Kind, NodeTrace, OutOfMemory, Pid, Serial, Trace};
use std::collections::{BTreeMap, BTreeSet, HashMap};

/// Returns whether the machine has a run of the split trace, if need be with events that nobody
/// reported.
pub(super) fn has_run(trace: &NodeTrace, run: &Run) -> Result<bool, CompleteError> {
    let Some(split) = Lives::of(trace, run).split()? else { return Ok(false) };
    let fits = gemshowal::audit(&split).is_ok();
    Ok(fits || matches!(gemshowal::complete(&split)?, Answer::Whole(_)))
}

struct Lives<'a> {
    trace: &'a NodeTrace,
    run: &'a Run,
    /// The events before which each process begins anew.
    begins: BTreeMap<Pid, Vec<u64>>,
    /// The sends of receives, if both were reported.
    sends: HashMap<Place, Place>,
    receives: HashMap<Place, Place>,
}

impl<'a> Lives<'a> {
    fn of(trace: &'a NodeTrace, run: &'a Run) -> Lives<'a> {
        let mut begins: BTreeMap<Pid, Vec<u64>> =
            trace.trace().processes().map(|(pid, _)| (pid, Vec::new())).collect();
        for &(pid, index) in &run.begins {
            begins.entry(pid).or_default().push(index);
        }
        let pairs = trace.pairs();
        let sends = pairs.iter().map(|&(send, receive)| (receive, send)).collect();
        Lives { trace, run, begins, sends, receives: pairs.into_iter().collect() }
    }

    fn life(&self, (pid, index): Place) -> usize {
        self.begins.get(&pid).map_or(0, |begins| begins.partition_point(|&begin| begin <= index))
    }

    /// Returns the split trace, unless it has more processes than pids can name.
    fn split(&self) -> Result<Option<Trace>, OutOfMemory> {
        let all = self
            .begins
            .iter()
            .flat_map(|(&pid, begins)| (0..=begins.len()).map(move |life| (pid, life)));
        let named = (0..=u32::MAX).map(|at| Pid::on((at >> 16) as u16, at as u16));
        let pids: HashMap<(Pid, usize), Pid> = all.zip(named).collect();
        let split = |(place, event): (Place, &Event)| {
            let pid = *pids.get(&(place.0, self.life(place)))?;
            Some((pid, self.renamed(place, event, &pids)?))
        };
        let listed: BTreeSet<Pid> = pids.values().copied().collect();
        let events: Option<Vec<(Pid, Event)>> = self.trace.trace().events().map(split).collect();
        events.map(|events| Trace::of_events(listed, events)).transpose()
    }

    fn renamed(
        &self,
        place: Place,
        event: &Event,
        pids: &HashMap<(Pid, usize), Pid>,
    ) -> Option<Event> {
        let other_life = |pair: Option<&Place>| {
            pair.map_or_else(|| self.run.ends.get(&place).copied(), |&end| Some(self.life(end)))
        };
        let (from, to, shown) = match event.kind {
            Kind::Receive => {
                let send = self.sends.get(&place);
                let from = (event.from, other_life(send).unwrap_or(0));
                (from, Some((place.0, self.life(place))), send.copied().unwrap_or(place))
            }
            Kind::Send | Kind::Print => {
                let life = other_life(self.receives.get(&place)).unwrap_or(0);
                ((place.0, self.life(place)), event.to.map(|to| (to, life)), place)
            }
        };
        let to = match to {
            Some(to) => Some(*pids.get(&to)?),
            None => None,
        };
        let this = event.serial.this;
        let own = if event.serial.prev < this { event.serial.prev } else { 0 };
        let prev = self.run.prevs.get(&shown).copied().unwrap_or(own);
        Some(Event { from: *pids.get(&from)?, to, serial: Serial { prev, this }, ..*event })
    }
}
