//! A log for ShiViz: two lines for each event, what it is, and its process with its vector clock as
//! JSON: for each process the number of its events up to this one.

use super::scene::{Place, Scene};
use crate::names::Line;
use crate::object::kind_word;
use crate::output::{Notes, Output};
use crate::{Ended, Status};
use gemshowal::{Event, Partner, Pid, Text};
use std::collections::HashMap;
use std::io;

/// The most counts that the clocks of a log may have together, as processes times events.
const MOST_COUNTS: usize = 100_000_000;

/// The number of events of each process that has any, by rising place of the process.
type Clock = Vec<(usize, u64)>;

pub(super) fn write(scene: &Scene<'_>, name: &str, out: &mut Output, notes: &mut Notes) -> Ended {
    let order = scene.in_order()?;
    if order.len().saturating_mul(scene.lanes.len()) > MOST_COUNTS {
        notes.say(format_args!(
            "note: {name}: the clocks of its events may have more than {MOST_COUNTS} counts; \
             export a part (gemshowal cut), or take --as perfetto"
        ));
        return Ok(Status::Long);
    }
    let hosts: Vec<String> = scene.lanes.iter().map(|&pid| host(scene, pid)).collect();
    let quoted: Vec<String> = hosts.iter().map(|host| format!("{host:?}:")).collect();
    each_clock(scene, &order, |lane, event, clock| {
        out.put(|line| {
            put_words(line, scene, event);
            line.text("\n").text(hosts.get(lane).map_or("", |host| host)).text(" ");
            let mut mark = "{";
            for &(lane, count) in clock {
                line.text(mark).text(quoted.get(lane).map_or("", |host| host)).number(count);
                mark = ",";
            }
            line.text("}\n");
        })
    })?;
    Ok(Status::Yes)
}

fn each_clock(
    scene: &Scene<'_>,
    order: &[(Place, &Event)],
    mut run: impl FnMut(usize, &Event, &Clock) -> io::Result<()>,
) -> io::Result<()> {
    let mut clocks = vec![Clock::new(); scene.lanes.len()];
    let mut sent = HashMap::<Place, Clock>::new();
    for &(place, event) in order {
        let Ok(lane) = scene.lanes.binary_search(&place.0) else { continue };
        let clock = &mut clocks[lane];
        for (other, count) in sent.remove(&place).unwrap_or_default() {
            let own = count_of(clock, other);
            *own = count.max(*own);
        }
        *count_of(clock, lane) += 1;
        if let Partner::Receive(to, at) = scene.partner(place, event) {
            sent.insert((to, at), clock.clone());
        }
        run(lane, event, clock)?;
    }
    Ok(())
}

/// Returns the count of the process at this place, 0 if the clock had none.
fn count_of(clock: &mut Clock, lane: usize) -> &mut u64 {
    let at = clock.binary_search_by_key(&lane, |&(lane, _)| lane).unwrap_or_else(|at| {
        clock.insert(at, (lane, 0));
        at
    });
    &mut clock[at].1
}

fn put_words(line: &mut Line<'_>, scene: &Scene<'_>, event: &Event) {
    let names = scene.names;
    line.text(kind_word(event.kind)).text(" ");
    if scene.names.has_terms() {
        line.brief(names, event.value);
    } else {
        line.number(event.value);
    }
    line.text(" ").serial(event.serial).text(" label ").label(names, event.label);
    line.other_end(names, event);
}

/// Names a process in a word without blanks or quotes: by its name and its pid.
fn host(scene: &Scene<'_>, pid: Pid) -> String {
    let name = scene.names.process(pid);
    let is_plain = |c: &char| !c.is_whitespace() && !c.is_control() && !matches!(c, '"' | '\\');
    match name.starts_with('<') {
        true => Text(pid).to_string(),
        false => format!("{}{}", name.chars().filter(is_plain).collect::<String>(), Text(pid)),
    }
}
