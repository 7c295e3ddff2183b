//! Calls each public type and call of the thirteen libraries as it was planned before the first was written, by one who knows
//! only their signatures and what they return. What differs is in docs/DECISIONS.md.
use st_arena::Lists;
use st_audit::{audit, AuditFault, Finding, Reason};
use st_chain::{Cause, Chains};
use st_chart::{chart, report, ChartFault};
use st_check::{check, replay, CheckFault, ReplayFault, Replayed, Verdict};
use st_commands::{run, run_audit, run_chart, run_check, run_drive, run_replay};
use st_core::{
    Act, AddFault, ByteSink, ByteSource, ClockFull, Component, Draft, EndlessSource, Event, Failed, Flags,
    Kind, Label, Local, MemorySink, MemorySource, Message, OpenFault, Pid, ReadFrom, Reply, Sequence, Serial,
    Streams, Token, Unlisted, Want, WriteTo,
};
use st_library::alloc::Global;
use st_library::rt::HostRuntime;
use st_library::vec::Vec;
use st_mail::Mailboxes;
use st_order::{by_label, order, Item};
use st_pair::{pair, PairFault, Source};
use st_runtime::{
    drive, join_pieces, ActFault, DriveFault, Entry, Gate, JoinFault, OpenFault as Falling, OpenGate, Pcb,
    PcbFault, Pieces, Record, Seat, System,
};
use st_text::{
    read, write, write_act, write_event, write_parts, write_pid, Bundle, Device, Feed, ReadFault, UnknownAct,
};
use st_world::{NewFault, Outcome, StepFault, World};
use std::fmt::Debug;

/// Why a test failed. The faults of the calls are `Error`.
type Fail = Box<dyn std::error::Error>;

const ONE_MESSAGE: &str = "seqtrace 1\n\
    process <0.30.0>\n\
    {seq_trace,17,{send,{0,1},<0.30.0>,<0.31.0>,5}}\n\
    process <0.31.0>\n\
    {seq_trace,17,{'receive',{0,1},<0.30.0>,<0.31.0>,5}}\n";
const PRINT_ONE: &str = "seqtrace 1\n\
    process <0.30.0>\n\
    {seq_trace,17,{print,{0,1},<0.30.0>,[],7}}\n\
    acts\n\
    tracer <0.30.0> true\n\
    set <0.30.0> label 17\n\
    set <0.30.0> print true\n\
    print <0.30.0> 7\n";

fn p30() -> Pid {
    Pid::new(30)
}

fn p31() -> Pid {
    Pid::new(31)
}

fn same<T: PartialEq + Debug + ?Sized>(found: &T, wanted: &T) {
    assert_eq!(found, wanted);
}


/// The one message of these tests, which 30 sends to 31, as an event.
fn message(kind: Kind) -> Event {
    Event {
        label: Label(17),
        kind,
        serial: Serial { prev: 0, this: 1 },
        from: p30(),
        to: Some(p31()),
        value: 5,
    }
}

/// Its send and its receive, each in the stream of its process.
fn one_message(alloc: Global) -> Result<Streams, Fail> {
    let mut draft = Draft::new(alloc);
    for (pid, kind) in [(p30(), Kind::Send), (p31(), Kind::Receive)] {
        draft.open(pid)?;
        draft.add(pid, message(kind))?;
    }
    let Ok(streams) = draft.close() else {
        return Err("a process isn't listed".into());
    };
    Ok(streams)
}

// The machine, and the parts that keep it.
#[test]
fn a_local_record_is_called() -> Result<(), Fail> {
    let me = Pid::on(0, 30);
    same(&(me.node(), me.number()), &(0, 30));
    let mut local = Local::<9>::new();
    same(&local.set(me, Component::Label(Label(17))), &None);
    same(&local.set(me, Component::Send(true)), &Some(Component::Send(false)));
    let stamped = Token {
        label: Label(17),
        flags: Flags { send: true, receive: false, print: false },
        serial: Serial { prev: 0, this: 1 },
        from: me,
    };
    same(&local.advance(me), &Ok(stamped));
    assert!(Local::<9>::fits(&stamped));
    local.meet(None);
    same(&(local.token(), local.clock(), local.last()), &(None, 1, 0));
    same(&local.restore(Some(stamped)), &None);
    same(&local.trace(true), &false);
    local.wipe();
    same(&(local.token(), local.clock(), local.traced()), &(None, 0, true));
    Ok(())
}

#[test]
fn streams_are_called() -> Result<(), Fail> {
    let streams = one_message(Global)?;
    same(&streams.pids(), &[p30(), p31()].as_slice());
    same(&(streams.len(p30()), streams.total()), &(1, 2));
    same(&streams.event(p31(), 0), &Some(message(Kind::Receive)));
    let mut draft = Draft::new(Global);
    draft.open(p30())?;
    draft.add(p30(), message(Kind::Send))?;
    let Err(Unlisted { draft, pid, index }) = draft.close() else {
        return Err("31 isn't listed".into());
    };
    same(&(draft.pids().len(), pid, index), &(1, p30(), 0));
    Ok(())
}

#[test]
fn devices_are_called() -> Result<(), Fail> {
    let mut piece = [0; 4];
    same(&EndlessSource::new().take(&mut piece), &Ok(4));
    same(&MemorySource::new(b"abcdef", None).take(&mut piece), &Ok(4));
    same(&ReadFrom::new(b"ab".as_slice()).take(&mut piece), &Ok(2));
    let mut sink = MemorySink::new(Global, 4, None)?;
    same(&sink.put(&piece), &Ok(4));
    assert!(sink.written() == b"abcd".as_slice());
    let mut list = Vec::new(Global);
    same(&WriteTo::new(&mut list).put(b"ab"), &Ok(2));
    Ok(())
}

#[test]
fn lists_are_called() -> Result<(), Fail> {
    let mut lists = Lists::new(Global, 2)?;
    lists.reserve(1)?;
    lists.push_reserved(0, 7_u64);
    let Ok(()) = lists.push_back(0, 8) else {
        return Err("no memory".into());
    };
    lists.change_all(0, &|n: &u64| -> u64 { *n / 2 });
    same(&(lists.len(0), lists.get(0, 1).copied()), &(2, Some(4)));
    same(&lists.find_first(0, &|n: &u64| -> bool { *n == 4 }), &Some(1));
    same(&lists.walk(0).count(), &2);
    same(&lists.take_at(0, 0), &Some(3));
    Ok(())
}

#[test]
fn mailboxes_are_called() -> Result<(), Fail> {
    let mut token = Token::made_by(p30());
    token.serial = Serial { prev: 0, this: 1 };
    let sent = Message { from: p30(), value: 5, token: Some(token) };
    let mut mail = Mailboxes::new(Global, 2)?;
    mail.reserve(1)?;
    mail.put_reserved(1, sent);
    mail.put(1, sent)?;
    same(&(mail.len(1), mail.get(1, 0)), &(2, Some(sent)));
    same(&mail.find(1, &Want::Value(5)), &Some(0));
    same(&mail.place_of(1, p30(), 1), &Some(0));
    same(&mail.take(1, &Want::Place(1)), &Some((1, sent)));
    mail.wipe_tokens(1);
    same(&mail.place_of(1, p30(), 1), &None);
    Ok(())
}

#[test]
fn a_world_is_called() -> Result<(), Fail> {
    let mut world = World::<9>::new(Global, &[p30(), p31()])?;
    for act in [
        Act::Tracer(p30(), true),
        Act::Set(p30(), Component::Label(Label(17))),
        Act::Set(p30(), Component::Receive(true)),
        Act::Send(p30(), p31(), 5),
    ] {
        world.step(&act)?;
    }
    same(&world.place_of(p31(), p30(), 1), &Some(0));
    let Outcome { reply, report, place } = world.step(&Act::Receive(p31(), Want::From(p30())))?;
    same(&(reply, place), &(Reply::Mail(p30(), 5), Some(0)));
    same(&report, &Some(message(Kind::Receive)));
    same(&(world.clock(p31()), world.last(p31())), &(Some(1), Some(1)));
    same(&world.token(p31()).is_some(), &true);
    let _event: Option<Event> = report;
    Ok(())
}

// Texts, the checker, and findings about collected streams.
#[test]
fn texts_are_called() -> Result<(), Fail> {
    let mut feed = Feed::new(Global);
    feed.piece(ONE_MESSAGE.as_bytes())?;
    let fed = feed.end()?;
    let bundle = read(Global, &mut MemorySource::new(ONE_MESSAGE.as_bytes(), None))?;
    let Ok(bundle) = Bundle::new(bundle.streams, fed.acts) else {
        return Err("an act isn't listed".into());
    };
    let mut sink = MemorySink::new(Global, 1000, None)?;
    write(&mut sink, &bundle)?;
    write_parts(&mut sink, &bundle.streams, None)?;
    same(&sink.written().len(), &(2 * ONE_MESSAGE.len()));
    let mut sink = MemorySink::new(Global, 1000, None)?;
    write_pid(&mut sink, p30())?;
    write_act(&mut sink, &Act::Look(p30()))?;
    write_event(&mut sink, &message(Kind::Send))?;
    let text = b"<0.30.0>look <0.30.0>{seq_trace,17,{send,{0,1},<0.30.0>,<0.31.0>,5}}";
    assert!(sink.written() == text.as_slice());
    Ok(())
}

#[test]
fn pairing_chains_and_order_are_called() -> Result<(), Fail> {
    let alloc = Global;
    let streams = one_message(alloc)?;
    let pairing = pair(alloc, &streams)?;
    same(&pairing.source(p31(), 0), &Some(Source::Event(p30(), 0)));
    same(&pairing.receiver(p30(), 0), &Some((p31(), 0)));
    let chains = Chains::new(alloc, &streams, &pairing)?;
    same(&chains.of(p31(), Label(17)).count(), &1);
    same(&chains.cause(p31(), 0), &Some(Cause::Event(p30(), 0)));
    let back = chains.back(p31(), 0)?;
    same(&back.as_slice(), &[(p31(), 0), (p30(), 0)].as_slice());
    let items = order(&HostRuntime, alloc, &streams, &pairing)?;
    let wanted = [Item::Reported(p30(), 0), Item::Reported(p31(), 0)];
    same(&items.as_slice(), &wanted.as_slice());
    same(&by_label(&HostRuntime, alloc, &streams, items.as_slice())?.len(), &1);
    let chains = Chains::new(alloc, &streams, &pairing)?;
    let mut sink = MemorySink::new(alloc, 1000, None)?;
    chart(alloc, &mut sink, &streams, &chains, items.as_slice(), Label(17))?;
    Ok(())
}

/// Acts that show the one message.
fn acts() -> [Act; 6] {
    [
        Act::Tracer(p30(), true),
        Act::Set(p30(), Component::Label(Label(17))),
        Act::Set(p30(), Component::Send(true)),
        Act::Set(p30(), Component::Receive(true)),
        Act::Send(p30(), p31(), 5),
        Act::Receive(p31(), Want::First),
    ]
}

#[test]
fn the_auditor_is_called() -> Result<(), Fail> {
    let streams = one_message(Global)?;
    let finding = audit::<{ u64::MAX }>(&HostRuntime, Global, &streams)?;
    assert!(matches!(finding, Finding::Fits(..)));
    let mut sink = MemorySink::new(Global, 1000, None)?;
    report(&mut sink, &streams, &finding)?;
    Ok(())
}

#[test]
fn the_checker_and_the_replay_are_called() -> Result<(), Fail> {
    let streams = one_message(Global)?;
    let verdict = check::<{ u64::MAX }>(Global, &streams, &acts())?;
    assert!(matches!(verdict, Verdict::Yes(_)));
    let replayed = replay::<{ u64::MAX }>(Global, streams.pids(), &acts())?;
    assert!(matches!(replayed, Replayed::Ran(..)));
    Ok(())
}

#[test]
fn the_program_is_called() -> Result<(), Fail> {
    let mut reader = MemorySource::new(ONE_MESSAGE.as_bytes(), None);
    let mut writer = MemorySink::new(Global, 1000, None)?;
    let status: u8 = run(&HostRuntime, &["seqaudit", "audit"], &mut reader, &mut writer);
    same(&status, &0);
    Ok(())
}

// The type of each refusal, by a call that fails for another reason than memory.
#[test]
fn local_steps_and_drafts_refuse() -> Result<(), Fail> {
    let mut local = Local::<0>::new();
    same(&local.set(p30(), Component::Send(true)), &None);
    same(&local.advance(p30()), &Err(ClockFull));
    let mut draft = Draft::new(Global);
    let sent = message(Kind::Send);
    same(&draft.add(p30(), sent), &Err(AddFault::Unknown));
    draft.open(p31())?;
    same(&draft.add(p31(), sent), &Err(AddFault::Foreign));
    same(&draft.open(p30()), &Err(OpenFault::NotRising));
    Ok(())
}

#[test]
fn devices_and_texts_refuse() -> Result<(), Fail> {
    let mut piece = [0; 4];
    let mut source = MemorySource::new(b"abcd", Some(0));
    same(&source.take(&mut piece), &Err(Failed));
    let mut sink = MemorySink::new(Global, 0, None)?;
    same(&sink.put(b"abcd"), &Err(Failed));
    same(&write_pid(&mut sink, p30()), &Err(Device));
    let fault = read(Global, &mut MemorySource::new(b"", None)).err();
    same(&fault, &Some(ReadFault::Truncated));
    Ok(())
}

#[test]
fn bundles_refuse() -> Result<(), Fail> {
    let mut acts = Sequence::new(Global);
    acts.push(Act::Look(p30()))?;
    let Ok(streams) = Draft::new(Global).close() else {
        return Err("a process isn't listed".into());
    };
    let Err(UnknownAct { n, streams, acts }) = Bundle::new(streams, Some(acts)) else {
        return Err("a bundle".into());
    };
    same(&(n, streams.total(), acts.is_some()), &(0, 0, true));
    Ok(())
}

#[test]
fn worlds_and_replays_refuse() -> Result<(), Fail> {
    let falling = [p31(), p30()];
    let fault = World::<9>::new(Global, &falling).err();
    same(&fault, &Some(NewFault::NotRising));
    let mut world = World::<9>::new(Global, &[p30()])?;
    let unknown = world.step(&Act::Look(p31()));
    same(&unknown, &Err(StepFault::Unknown));
    let fault = replay::<9>(Global, &falling, &[]).err();
    same(&fault, &Some(ReplayFault::NotRising));
    let told: Result<Verdict, CheckFault> = check::<9>(Global, &one_message(Global)?, &[Act::Look(p30())]);
    assert!(matches!(told, Ok(Verdict::Left(pid)) if pid == p30()));
    Ok(())
}

/// A print whose prev is its this.
fn unfit_print(alloc: Global) -> Result<Streams, Fail> {
    let print =
        Event { kind: Kind::Print, serial: Serial { prev: 1, this: 1 }, to: None, ..message(Kind::Print) };
    let mut draft = Draft::new(alloc);
    draft.open(p30())?;
    draft.add(p30(), print)?;
    let Ok(streams) = draft.close() else {
        return Err("a process isn't listed".into());
    };
    Ok(streams)
}

#[test]
fn pairing_and_the_auditor_refuse() -> Result<(), Fail> {
    let streams = unfit_print(Global)?;
    let fault = pair(Global, &streams).err();
    same(&fault, &Some(PairFault::PrevNotBefore(p30(), 0)));
    let found: Result<Finding, AuditFault> = audit::<9>(&HostRuntime, Global, &streams);
    assert!(matches!(found, Ok(Finding::Unfit(_, 0, Reason::PrevNotBefore))));
    Ok(())
}

#[test]
fn a_chart_is_refused() -> Result<(), Fail> {
    let alloc = Global;
    let streams = one_message(alloc)?;
    let pairing = pair(alloc, &streams)?;
    let chains = Chains::new(alloc, &streams, &pairing)?;
    let items = order(&HostRuntime, alloc, &streams, &pairing)?;
    let mut sink = MemorySink::new(alloc, 1000, None)?;
    let drawn = chart(alloc, &mut sink, &streams, &chains, items.as_slice(), Label(18));
    same(&drawn, &Err(ChartFault::NoLabel));
    Ok(())
}

#[test]
fn threads_refuse() -> Result<(), Fail> {
    let pids = [p31(), p30()];
    let mut scripts = Vec::new(Global);
    for _ in 0..pids.len() {
        scripts.push(Sequence::new(Global))?;
    }
    assert_eq!(scripts.len(), pids.len());
    let driven = drive::<9, 9, _, _>(&HostRuntime, Global, &pids, scripts, &OpenGate);
    same(&driven.err(), &Some(DriveFault::NotRising));
    let (system, seats) = System::<9, 9>::open(Global, &[p30()])?;
    same(&seats.len(), &1);
    let Ok(pieces) = system.gather(Vec::new(Global)) else {
        return Err("no memory".into());
    };
    let joined: Result<Record, JoinFault> = join_pieces(Global, &pieces);
    same(&joined.err(), &Some(JoinFault::SeatDiffers(p30())));
    Ok(())
}

#[test]
fn systems_refuse() -> Result<(), Fail> {
    let falling = [p31(), p30()];
    let fault = System::<9, 9>::open(Global, &falling).err();
    same(&fault, &Some(Falling::NotRising));
    let (system, seats) = System::<9, 9>::open(Global, &[p30()])?;
    for mut seat in seats {
        let made = system.act(&HostRuntime, &OpenGate, &mut seat, &Act::Look(p31()));
        same(&made, &Err(ActFault::NotYours));
    }
    let mut process = Pcb::<9, 0>::new(Global, p30())?;
    let made = process.alone(&Act::Look(p30()));
    same(&made, &Err(PcbFault::RankFull));
    Ok(())
}

// Processes under locks.
/// A gate of the caller's own.
struct Silent;

impl Gate for Silent {
    fn before(&self, _pid: Pid, _n: u64) {}

    fn after(&self, _pid: Pid, _n: u64) {}
}

/// The acts of the seat's process: 30 sends to 31, which receives that.
fn play(system: &System<9, 9>, seat: &mut Seat) {
    let act = if seat.pid() == p30() { Act::Send(p30(), p31(), 5) } else { Act::Receive(p31(), Want::First) };
    assert!(system.act(&HostRuntime, &Silent, seat, &act).is_ok());
    for (made, _reply) in seat.mine() {
        same(&made, &act);
    }
    let ends = (seat.mine().first(), seat.mine().last());
    same(&ends.0, &ends.1);
}

#[test]
fn the_log_of_a_process_is_called() -> Result<(), Fail> {
    let mut process = Pcb::<9, 9>::new(Global, p30())?;
    let looked = process.alone(&Act::Look(p30()));
    same(&looked, &Ok(Reply::Current(None)));
    let wanted =
        Entry { rank: 1, act: Act::Look(p30()), reply: Reply::Current(None), report: None, carried: None };
    for entry in process.log() {
        same(&entry, &wanted);
    }
    let ends = (process.log().first(), process.log().last());
    same(&ends, &(Some(wanted), Some(wanted)));
    let mut entries = process.log().iter();
    same(&entries.next(), &Some(wanted));
    same(&entries.next(), &None);
    same(&(process.pid(), process.local().clock()), &(p30(), 0));
    Ok(())
}

#[test]
fn a_system_is_called() -> Result<(), Fail> {
    let (system, seats) = System::<9, 9>::open(Global, &[p30(), p31()])?;
    let mut played = Vec::new(Global);
    for mut seat in seats {
        play(&system, &mut seat);
        played.push(seat)?;
    }
    let Ok(pieces) = system.gather(played) else {
        return Err("no memory".into());
    };
    let pieces: Pieces<9, 9> = pieces;
    let Record { streams, acts, replies } = join_pieces(Global, &pieces)?;
    same(&(streams.total(), acts.len(), replies.len()), &(0, 2, 2));
    Ok(())
}

#[test]
fn drive_is_called() -> Result<(), Fail> {
    let mut script = Sequence::new(Global);
    script.push(Act::Look(p30()))?;
    let mut scripts = Vec::new(Global);
    scripts.push(script)?;
    let record = drive::<9, 9, _, _>(&HostRuntime, Global, &[p30()], scripts, &OpenGate)?;
    same(&record.acts.len(), &1);
    Ok(())
}

// The function of each command, over any reader and writer.
#[test]
fn commands_of_acts_are_called() -> Result<(), Fail> {
    let mut reader = MemorySource::new(PRINT_ONE.as_bytes(), None);
    let mut writer = MemorySink::new(Global, 1000, None)?;
    let status: u8 = run_check(Global, &mut reader, &mut writer);
    same(&status, &0);
    assert!(writer.written() == b"yes\n".as_slice());
    let mut reader = MemorySource::new(PRINT_ONE.as_bytes(), None);
    let mut writer = MemorySink::new(Global, 1000, None)?;
    let status: u8 = run_replay(Global, &mut reader, &mut writer);
    same(&status, &0);
    same(&writer.written(), &PRINT_ONE.as_bytes());
    Ok(())
}

#[test]
fn the_command_of_scripts_is_called() -> Result<(), Fail> {
    let mut reader = MemorySource::new(PRINT_ONE.as_bytes(), None);
    let mut writer = MemorySink::new(Global, 1000, None)?;
    let status: u8 = run_drive(&HostRuntime, Global, &mut reader, &mut writer);
    same(&status, &0);
    same(&writer.written(), &PRINT_ONE.as_bytes());
    Ok(())
}

#[test]
fn commands_of_events_are_called() -> Result<(), Fail> {
    let mut reader = MemorySource::new(ONE_MESSAGE.as_bytes(), None);
    let mut writer = MemorySink::new(Global, 1000, None)?;
    let status: u8 = run_audit(&HostRuntime, Global, &mut reader, &mut writer);
    same(&status, &0);
    assert!(writer.written().starts_with(ONE_MESSAGE.as_bytes()));
    let mut reader = MemorySource::new(ONE_MESSAGE.as_bytes(), None);
    let mut writer = MemorySink::new(Global, 1000, None)?;
    let status: u8 = run_chart(&HostRuntime, Global, &mut reader, &mut writer, Label(17));
    same(&status, &0);
    assert!(writer.written().starts_with(b"label 17\n"));
    Ok(())
}
