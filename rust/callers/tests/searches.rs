//! Whether the maps of the library `indexmap` number pids and keep receives: a debug build counts how many keys each
//! thread looks for in them.
#![cfg(debug_assertions)]

use st_core::{Act, Draft, Event, Kind, Label, Pid, Serial, Streams};
use st_library::alloc::Global;
use st_library::indexmap::searches;
use st_pair::{pair, PairFault};
use st_world::{StepFault, World};
use std::error::Error;

type Tried = Result<(), Box<dyn Error>>;

/// Two pids that share a slot of the table of guesses, which has the number of the second.
const MISSED: Pid = Pid::on(0, 661);
const GUESSED: Pid = Pid::on(1, 0);

/// The stream of process 1, which received these from process 0, which reported nothing.
fn receives(counts: &[u64]) -> Result<Streams, Box<dyn Error>> {
    let (from, to) = (Pid::new(0), Pid::new(1));
    let mut draft = Draft::new(Global);
    draft.open(from)?;
    draft.open(to)?;
    for &this in counts {
        let serial = Serial { prev: 0, this };
        draft.add(to, Event { label: Label(1), kind: Kind::Receive, serial, from, to: Some(to), value: 7 })?;
    }
    draft.close().map_err(|_| "a pid isn't listed".into())
}

#[test]
fn a_pid_is_looked_for_if_its_guess_is_another_one() -> Tried {
    let mut world = World::<9>::new(Global, &[MISSED, GUESSED])?;
    let made = searches();
    world.step(&Act::Look(GUESSED))?;
    assert_eq!(searches(), made);
    world.step(&Act::Look(MISSED))?;
    assert_eq!(searches().sets, made.sets + 1);
    assert_eq!(world.step(&Act::Look(Pid::new(3))).err(), Some(StepFault::Unknown));
    assert_eq!(searches().sets, made.sets + 2);
    Ok(())
}

#[test]
fn each_receive_of_a_send_that_nobody_reported_is_kept_in_the_map() -> Tried {
    let before = searches();
    pair(Global, &receives(&[1, 2, 5])?)?;
    assert_eq!(searches().maps, before.maps + 3);
    Ok(())
}

#[test]
fn the_map_tells_the_first_receive_of_a_message_that_was_received_twice() -> Tried {
    let to = Pid::new(1);
    let before = searches();
    let fault = pair(Global, &receives(&[4, 2, 4, 2])?).err();
    assert_eq!(fault, Some(PairFault::Repeated(to, 2, to, 0)));
    assert_eq!(searches().maps, before.maps + 3);
    Ok(())
}
