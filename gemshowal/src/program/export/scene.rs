//! The events that are drawn of a trace, and their names.

use crate::causes::{Causes, Link};
use crate::names::Names;
pub(super) use crate::view::Place;
use crate::view::{ends, short};
use gemshowal::{Event, Item, Kind, Label, OutOfMemory, Partner, Pid, Trace};

pub(super) struct Scene<'a> {
    pub(super) trace: &'a Trace,
    pub(super) names: &'a Names,
    pub(super) causes: &'a Causes<'a>,
    label: Option<Label>,
    /// The processes that an event which is drawn is from or to, by rising pid.
    pub(super) lanes: Vec<Pid>,
    names_labels: bool,
}

impl<'a> Scene<'a> {
    pub(super) fn new(causes: &'a Causes<'a>, label: Option<Label>) -> Scene<'a> {
        let (trace, names) = (causes.trace(), causes.names());
        let mut labels = trace.events().map(|(_, event)| event.label);
        let first = labels.next();
        let names_labels = label.is_none() && labels.any(|label| Some(label) != first);
        let mut scene = Scene { trace, names, causes, label, lanes: vec![], names_labels };
        scene.lanes = ends(scene.events().map(|(_, event)| event));
        scene
    }

    /// Returns the number of a process's lane, from 1; 0 if it has none.
    pub(super) fn lane(&self, pid: Pid) -> usize {
        self.lanes.binary_search(&pid).map_or(0, |at| at + 1)
    }

    pub(super) fn has(&self, event: &Event) -> bool {
        self.label.is_none_or(|label| event.label == label)
    }

    pub(super) fn events(&self) -> impl Iterator<Item = (Place, &'a Event)> + '_ {
        self.trace.events().filter(|(_, event)| self.has(event))
    }

    /// Returns the events that are drawn, each after those that it follows.
    pub(super) fn in_order(&self) -> Result<Vec<(Place, &'a Event)>, OutOfMemory> {
        let reported = |(item, _)| match item {
            Item::Reported(pid, index) => Some(((pid, index), self.event((pid, index))?)),
            Item::Hidden(..) => None,
        };
        let order = self.causes.ordered()?.into_iter().filter_map(reported);
        Ok(order.filter(|(_, event)| self.has(event)).collect())
    }

    pub(super) fn event(&self, (pid, index): Place) -> Option<&'a Event> {
        self.trace.streams().events(pid).get(usize::try_from(index).ok()?)
    }

    pub(super) fn partner(&self, place: Place, event: &Event) -> Partner {
        self.causes.partner(place, event.kind)
    }

    /// Returns whether the event at this place is a receive whose send nobody reported.
    pub(super) fn is_unsent(&self, place: Place, event: &Event) -> bool {
        matches!(self.partner(place, event), Partner::NoSend)
    }

    pub(super) fn link(&self, (pid, index): Place) -> Link {
        self.causes.link(Item::Reported(pid, index))
    }

    pub(super) fn count_messages(&self) -> usize {
        let is_message = |&(place, event): &(Place, &Event)| match event.kind {
            Kind::Send => true,
            Kind::Receive => self.is_unsent(place, event),
            Kind::Print => false,
        };
        self.events().filter(is_message).count()
    }

    /// Returns the term of an event in short, or its value and its counts.
    pub(super) fn content(&self, event: &Event) -> String {
        let label = match self.names_labels {
            true if self.names.has_terms() => format!(" {}", self.names.label(event.label)),
            true => format!(" label {}", event.label.0),
            false => String::new(),
        };
        if self.names.has_terms() {
            return format!("{}{label}", short(&self.names.brief(event.value)));
        }
        format!("{} {}{label}", event.value, gemshowal::Text(event.serial))
    }

    /// Returns the name of a process's node, or its number if that isn't known.
    pub(super) fn node(&self, pid: Pid) -> String {
        let name = self.names.word_about(pid, " of node ");
        name.map_or_else(|| format!("node {}", pid.node()), str::to_owned)
    }

    pub(super) fn time(&self, place: Place) -> Option<i64> {
        self.names.times()?.of_event(place)
    }
}

/// A value for some events of a scene, by process.
pub(super) struct Table<T>(Vec<Vec<Option<T>>>);

impl<T: Copy> Table<T> {
    pub(super) fn of(scene: &Scene<'_>) -> Table<T> {
        Table(scene.trace.processes().map(|(_, events)| vec![None; events.len()]).collect())
    }

    pub(super) fn of_process(&self, scene: &Scene<'_>, pid: Pid) -> &[Option<T>] {
        scene.trace.streams().place_of(pid).map_or(&[], |place| &self.0[place])
    }

    pub(super) fn get(&self, scene: &Scene<'_>, (pid, index): Place) -> Option<T> {
        *self.of_process(scene, pid).get(index as usize)?
    }

    pub(super) fn set(&mut self, scene: &Scene<'_>, (pid, index): Place, value: Option<T>) {
        let own = scene.trace.streams().place_of(pid).map(|place| &mut self.0[place]);
        if let Some(own) = own.and_then(|own| own.get_mut(index as usize)) {
            *own = value;
        }
    }
}
