//! The command `export`: a trace for other programs that draw.
//!
//! What an event pairs with and what it follows is found by the proved libraries. Each format has
//! one writer here, with names, terms and times if the trace has them.

mod dot;
mod mermaid;
mod otlp;
mod perfetto;
mod scene;
mod shiviz;
mod span;
pub(crate) mod work;

use crate::args::{Export, Target};
use crate::causes::{Causes, Links};
use crate::output::{Notes, Output};
use crate::reason::{paired, Against};
use crate::view::View;
use crate::{Ended, Failure, Status, Task};
use gemshowal::Never;
use scene::Scene;
use std::fmt::Display;

/// The greatest number of messages in a drawing that is easily read.
const READABLE: usize = 300;

pub(crate) fn run(args: &Export, task: Task<'_>) -> Ended {
    let Task { input, out, notes, .. } = task;
    let (trace, names) = input.read(notes)?;
    let name = input.line_name();
    let view = View::whole(&trace, &names);
    let paired = match paired(&view) {
        // The output is another program's, so standard error says it.
        Err(Failure::Never(no)) => return Ok(nothing(notes, no.headline)),
        paired => paired?,
    };
    let links = Links::of_view(&view)?;
    let causes = Causes::paired(&view, &links, &paired)?;
    // The order of all events isn't that of each process then. A graph needs no order.
    let refusal = causes.never().filter(|_| args.target != Target::Dot);
    if let Some((pid, index, never @ Never::Late(_))) = refusal {
        let against = Against::by_complete(pid, index, never);
        return Ok(nothing(notes, against.headline(&view)));
    }
    let label = args.label.as_deref().map(|label| names.find_label(&trace, Some(label)));
    let scene = Scene::new(&causes, label.transpose()?);
    if scene.events().next().is_none() {
        return Ok(nothing(notes, format_args!("no: {name}: there is no event to be drawn")));
    }
    write(args.target, &scene, name, out, notes)
}

fn nothing(notes: &mut Notes, why: impl Display) -> Status {
    notes.say(why);
    Status::No
}

fn write(
    target: Target,
    scene: &Scene<'_>,
    name: &str,
    out: &mut Output,
    notes: &mut Notes,
) -> Ended {
    let messages = scene.count_messages();
    if matches!(target, Target::Mermaid | Target::Dot) && messages > READABLE {
        notes.say(format_args!(
            "note: {name}: a drawing of {messages} messages isn't easily read; choose a label \
             (--label) or a part (gemshowal cut), or take --as perfetto"
        ));
    }
    match target {
        Target::Mermaid => mermaid::write(scene, out)?,
        Target::Dot => dot::write(scene, out)?,
        Target::Perfetto => perfetto::write(scene, out)?,
        Target::Shiviz => return shiviz::write(scene, name, out, notes),
        Target::Otlp => return otlp::write(scene, name, out, notes),
    }
    Ok(Status::Yes)
}
