//! Worked cases of the libraries' calls: what each returns was worked out by hand.

use st_arena::Lists;
use st_check::{check, Verdict};
use st_core::{
    Act, ByteSource, Component, Draft, Label, MemorySource, Pid, Reply, Sequence, Serial, Streams, Token,
    Want,
};
use st_library::alloc::Global;
use st_library::rt::HostRuntime;
use st_library::vec::Vec;
use st_runtime::{join_pieces, ActFault, JoinFault, OpenGate, Pcb, Pieces, Seat, System};
use st_text::{read, Feed, ReadFault};
use st_world::{StepFault, World};
use std::error::Error;

type Tried = Result<(), Box<dyn Error>>;

const P30: Pid = Pid::on(0, 30);
const P31: Pid = Pid::on(0, 31);
const PRINT_ONE: &[u8] = b"seqtrace 1\nprocess <0.30.0>\n{seq_trace,17,{print,{0,1},<0.30.0>,[],7}}\n";

fn items(lists: &Lists<u64>, list: usize) -> std::vec::Vec<u64> {
    lists.walk(list).copied().collect()
}

/// The token of 30 after this many stamps of its first trace.
fn stamped(count: u64) -> Token {
    Token { serial: Serial { prev: 0, this: count }, ..Token { label: Label(1), ..Token::made_by(P30) } }
}

fn no_events(pids: &[Pid]) -> Result<Streams, Box<dyn Error>> {
    let mut draft = Draft::new(Global);
    for &pid in pids {
        draft.open(pid)?;
    }
    draft.close().map_err(|_| "a pid isn't listed".into())
}

#[test]
fn a_take_from_the_middle_leaves_later_takes_right() -> Tried {
    let mut lists = Lists::new(Global, 2)?;
    lists.reserve(3)?;
    for item in [8, 9, 8] {
        lists.push_reserved(0, item);
    }
    assert_eq!(lists.take_at(0, 1), Some(9));
    lists.push_back(1, 4).map_err(|_| "no memory")?;
    assert_eq!(lists.take_at(0, 1), Some(8));
    for (list, item) in [(1, 5), (0, 7)] {
        lists.push_back(list, item).map_err(|_| "no memory")?;
    }
    assert_eq!((items(&lists, 0), items(&lists, 1)), (vec![8, 7], vec![4, 5]));
    Ok(())
}

#[test]
fn values_are_taken_out_of_order() -> Tried {
    let mut world = World::<9>::new(Global, &[P30, P31])?;
    for value in [8, 9, 8] {
        world.step(&Act::Send(P30, P31, value))?;
    }
    let nine = world.step(&Act::Receive(P31, Want::Value(9)))?;
    assert_eq!((nine.reply, nine.place), (Reply::Mail(P30, 9), Some(1)));
    world.step(&Act::Send(P30, P31, 4))?;
    for wanted in [Some(8), Some(8), Some(4), None, None] {
        let got = world.step(&Act::Receive(P31, Want::First))?.reply;
        assert_eq!(got, wanted.map_or(Reply::Nothing, |value| Reply::Mail(P30, value)));
    }
    Ok(())
}

#[test]
fn a_reset_takes_the_token_of_a_queued_message() -> Tried {
    let mut world = World::<9>::new(Global, &[P30, P31])?;
    for act in [
        Act::Tracer(P30, true),
        Act::Set(P30, Component::Label(Label(17))),
        Act::Send(P30, P31, 5),
        Act::Reset(P30),
    ] {
        world.step(&act)?;
    }
    let received = world.step(&Act::Receive(P31, Want::First))?;
    assert_eq!((received.reply, received.report), (Reply::Mail(P30, 5), None));
    assert_eq!((world.token(P31), world.clock(P30), world.clock(P31)), (None, Some(0), Some(0)));
    Ok(())
}

#[test]
fn a_small_clock_is_full_after_three_prints() -> Tried {
    let mut world = World::<3>::new(Global, &[P30])?;
    world.step(&Act::Set(P30, Component::Label(Label(1))))?;
    for value in 0..3 {
        world.step(&Act::Print(P30, value))?;
    }
    assert_eq!(world.step(&Act::Print(P30, 3)), Err(StepFault::ClockFull));
    assert_eq!(world.clock(P30), Some(3));
    assert_eq!(world.step(&Act::Clear(P30))?.reply, Reply::Previous(Some(stamped(3))));
    assert_eq!(world.step(&Act::Send(P30, P30, 5))?.reply, Reply::Done);
    let acts = [
        Act::Set(P30, Component::Label(Label(1))),
        Act::Print(P30, 0),
        Act::Print(P30, 1),
        Act::Print(P30, 2),
        Act::Print(P30, 3),
    ];
    assert!(matches!(check::<3>(Global, &no_events(&[P30])?, &acts)?, Verdict::Stuck(4)));
    Ok(())
}

#[test]
fn a_small_log_is_full_after_three_looks() -> Tried {
    let (system, seats) = System::<3, 3>::open(Global, &[P30])?;
    for mut seat in seats {
        let mut looked = std::vec::Vec::new();
        for _ in 0..4 {
            looked.push(system.act(&HostRuntime, &OpenGate, &mut seat, &Act::Look(P30)).is_ok());
        }
        assert_eq!(looked, [true, true, true, false]);
        assert_eq!(system.act(&HostRuntime, &OpenGate, &mut seat, &Act::Look(P30)), Err(ActFault::RankFull));
        assert_eq!(seat.mine().into_iter().count(), 3);
    }
    Ok(())
}

#[test]
fn refusals_leave_the_calls_of_a_seat_as_they_were() -> Tried {
    let (system, seats) = System::<3, 99>::open(Global, &[P30])?;
    for mut seat in seats {
        let mut act = |act: &Act| system.act(&HostRuntime, &OpenGate, &mut seat, act);
        assert_eq!(act(&Act::Look(P31)), Err(ActFault::NotYours));
        assert_eq!(act(&Act::Look(P30)), Ok(Reply::Current(None)));
        assert_eq!(act(&Act::Send(P30, Pid::on(0, 99), 1)), Err(ActFault::Unknown));
        assert_eq!(act(&Act::Look(P30)), Ok(Reply::Current(None)));
        assert_eq!(act(&Act::Set(P30, Component::Label(Label(1)))), Ok(Reply::Old(None)));
        for value in 0..3 {
            assert_eq!(act(&Act::Print(P30, value)), Ok(Reply::Done));
        }
        assert_eq!(act(&Act::Print(P30, 3)), Err(ActFault::ClockFull));
        assert_eq!(act(&Act::Look(P30)), Ok(Reply::Current(Some(stamped(3)))));
        assert_eq!(seat.mine().into_iter().count(), 7);
    }
    Ok(())
}

#[test]
fn a_missing_entry_and_a_missing_seat_are_named() -> Tried {
    let (mut sender, mut receiver) = (Pcb::<9, 9>::new(Global, P30)?, Pcb::new(Global, P31)?);
    Pcb::between(&mut sender, &mut receiver, &Act::Send(P30, P31, 5))?;
    let mut processes = Vec::new(Global);
    processes.push(sender).map_err(|_| "no memory")?;
    processes.push(Pcb::new(Global, P31)?).map_err(|_| "no memory")?;
    let joined = join_pieces(Global, &Pieces::new(processes, Vec::<Seat>::new(Global)));
    assert_eq!(joined.err(), Some(JoinFault::Missing(P30, 0)));
    let (system, _seats) = System::<9, 9>::open(Global, &[P30, P31])?;
    let Ok(pieces) = system.gather(Vec::new(Global)) else {
        return Err("no memory".into());
    };
    assert_eq!(join_pieces(Global, &pieces).err(), Some(JoinFault::SeatDiffers(P30)));
    Ok(())
}

#[test]
fn a_text_fed_byte_by_byte_is_its_bundle() -> Tried {
    let mut feed = Feed::new(Global);
    for byte in PRINT_ONE.chunks(1) {
        feed.piece(byte)?;
    }
    let fed = feed.end()?;
    let whole = read(Global, &mut MemorySource::new(PRINT_ONE, None))?;
    assert_eq!(
        (fed.streams.pids(), fed.streams.event(P30, 0)),
        (whole.streams.pids(), whole.streams.event(P30, 0))
    );
    assert!(fed.acts.is_none());
    Ok(())
}

#[test]
fn a_device_fault_comes_before_a_faulty_line_and_falling_pids_before_memory() {
    let faulty = b"seqtrace 1\nprocess <0.31.0>\nprocess <0.30.0>\n";
    let mut source = MemorySource::new(faulty, Some(40));
    assert_eq!(read(Global, &mut source).err(), Some(ReadFault::Device));
    assert!(source.take(&mut [0]).is_err());
    assert_eq!(read(Global, &mut MemorySource::new(faulty, None)).err(), Some(ReadFault::Order(3)));
    let falling: [Pid; 2] = [P31, P30];
    assert!(World::<9>::new(Global, &falling).is_err());
    assert!(System::<9, 9>::open(Global, &falling).is_err());
    assert!(st_check::replay::<9>(Global, &falling, &[]).is_err());
    let scripts = (0..2).map(|_| Sequence::new(Global)).collect::<std::vec::Vec<Sequence<Act>>>();
    assert_eq!(scripts.len(), falling.len());
}
