//! The command `cut`: the text of the events that meet conditions, of a trace of any size.
//!
//! The parts are read three times: for what there is to choose from, for the messages of the chosen
//! events, and for what is written. In memory are the processes, the names, and what is written.

mod kept;
mod part;
mod selection;
mod survey;

use self::kept::{Ends, Kept};
use self::part::Parts;
use self::selection::{NamedEvent, Selection};
use self::survey::Survey;
use crate::args::Cut;
use crate::view::{count, grouped};
use crate::{Ended, Status, Task};

pub(crate) fn run(args: &Cut, task: Task<'_>) -> Ended {
    let Task { input, out, notes, .. } = task;
    let mut parts = Parts::new(input, &args.names)?;
    let named = args.around.iter().map(|word| NamedEvent::read(word, &parts));
    let named = named.collect::<Result<Vec<_>, _>>()?;
    let survey = Survey::new(&mut parts, &named)?;
    let names = parts.names(notes)?;
    let mut selection = Selection::new(args, &named, &survey, &names, &parts)?;
    let ends = Ends::new(&mut parts, &mut selection)?;
    let kept = Kept::new(&mut parts, &mut selection, &ends)?;
    kept.write(out)?;
    for (pid, index, now, line) in kept.places() {
        let [before, now] = [index, now].map(|index| names.event((pid, index)));
        notes.say(format_args!("note: {before} is {now} in what is kept, on line {line}"));
    }
    let [receives, sends] = kept.open;
    notes.say(format_args!(
        "note: {} of {} are kept; the sends of {} and the receives of {} are cut off",
        grouped(kept.events),
        count(survey.events, "event"),
        count(receives, "receive"),
        count(sends, "send")
    ));
    Ok(Status::Yes)
}
