//! The pairs of sends and receives, the order of all events, and the event that each one follows,
//! as the proved libraries find them.

use crate::{Event, Kind, Never, OutOfMemory, PairError, Partner, Pid, Streams, TOP};
use lack_needs::{find_flaw, find_unfounded, Flaw};
use node_hops::NodeHop;
use st_library::alloc::Global;
use st_library::rt::HostRuntime;
use st_order::Item;
use st_pair::Pairing;

/// Streams whose receives are paired with their sends.
pub struct Paired<'a> {
    streams: &'a Streams,
    pairing: Pairing,
}

impl<'a> Paired<'a> {
    /// Pairs streams, or says why they can't be paired.
    pub fn of(streams: &'a Streams) -> Result<Paired<'a>, PairError> {
        Ok(Paired { streams, pairing: st_pair::pair(Global, streams)? })
    }

    /// Pairs streams, if they can be paired.
    pub fn if_possible(streams: &'a Streams) -> Result<Option<Paired<'a>>, OutOfMemory> {
        match Paired::of(streams) {
            Ok(paired) => Ok(Some(paired)),
            Err(PairError::Never(..)) => Ok(None),
            Err(PairError::Memory(error)) => Err(error),
        }
    }

    /// Finds an event and why no run without a reset reports it, as [`crate::complete`] does:
    /// late events first, then unfounded ones.
    pub fn refusal(&self) -> Result<Option<(Pid, u64, Never)>, OutOfMemory> {
        if let Some((pid, index)) = find_flaw(self.streams, Flaw::Late) {
            let events = &self.streams.events(pid)[..=index as usize];
            let is_higher = |event: &Event| event.serial.this >= events[index as usize].serial.this;
            let higher = events[..index as usize].iter().rposition(is_higher).unwrap_or(0);
            return Ok(Some((pid, index, Never::Late(higher as u64))));
        }
        if let Some((pid, index)) = find_unfounded(Global, self.streams, &self.pairing)? {
            return Ok(Some((pid, index, Never::Unfounded)));
        }
        let high = find_flaw(self.streams, Flaw::TooHigh(TOP));
        Ok(high.map(|(pid, index)| (pid, index, Never::TooHigh)))
    }

    /// Orders all events, with the sends that only their receives tell of. If a run without a reset
    /// reports the streams, each event comes after those that it follows.
    pub fn order(&self) -> Result<Vec<Item>, OutOfMemory> {
        let order = st_order::order(&HostRuntime, Global, self.streams, &self.pairing)?;
        Ok(order.into_vec().into_iter().collect())
    }

    /// Returns what the event of this kind at this place pairs with.
    pub fn partner(&self, (pid, index): (Pid, u64), kind: Kind) -> Partner {
        st_pair::partner_at(&self.pairing, pid, index, kind)
    }
}

/// The hops back from the events of one process after the other, by the rules of a standard node.
pub struct ProcessHops<'a>(node_streams::Sends<'a>);

impl<'a> ProcessHops<'a> {
    /// Collects the sends of these streams, to which hops lead.
    pub fn of(streams: &'a Streams) -> Result<ProcessHops<'a>, OutOfMemory> {
        Ok(ProcessHops(node_streams::Sends::of(Global, streams)?))
    }

    /// Finds the hops back from the events of a process, in order.
    pub fn find(&self, pid: Pid) -> Result<Vec<NodeHop>, OutOfMemory> {
        Ok(node_hops::process_hops(Global, &self.0, pid)?.into_iter().collect())
    }
}

/// The hops back from all events of streams, by the rules of a standard node.
pub struct NodeHops<'a>(node_hops::NodeHops<'a>);

impl<'a> NodeHops<'a> {
    /// Finds the hops of these streams.
    pub fn of(streams: &'a Streams) -> Result<NodeHops<'a>, OutOfMemory> {
        Ok(NodeHops(node_hops::NodeHops::new(Global, streams)?))
    }

    /// Returns the hop back from this event, which is at this place.
    pub fn hop(&self, (pid, index): (Pid, u64), event: &Event) -> NodeHop {
        self.0.hop(pid, index, event)
    }
}
