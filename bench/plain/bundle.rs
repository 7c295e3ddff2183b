//! The text of bundles: a strict reader over bytes, and what it reads.

use std::ops::Range;

/// Node and number, the node in the upper half, so that pids are ordered as the text asks.
pub type Pid = u32;

/// A process by its place among the listed ones.
pub type Place = u32;

#[derive(Clone, Copy, PartialEq, Eq)]
pub enum Kind {
    Send,
    Receive,
    Print,
}

/// An event of a process; `to` of a print is 0.
#[derive(Clone, Copy, PartialEq, Eq)]
pub struct Event {
    pub value: u64,
    pub prev: u64,
    pub this: u64,
    pub label: u32,
    pub from: Pid,
    pub to: Pid,
    pub kind: Kind,
}

#[derive(Clone, Copy, PartialEq, Eq)]
pub struct Flags {
    pub send: bool,
    pub receive: bool,
    pub print: bool,
}

#[derive(Clone, Copy)]
pub struct Token {
    pub prev: u64,
    pub this: u64,
    pub label: u32,
    pub from: Pid,
    pub flags: Flags,
}

#[derive(Clone, Copy)]
pub enum Want {
    First,
    From(Pid),
    Value(u64),
    Both(Pid, u64),
    Place(u64),
}

#[derive(Clone, Copy)]
pub enum Component {
    Label(u32),
    Send(bool),
    Receive(bool),
    Print(bool),
}

#[derive(Clone, Copy)]
pub enum Deed {
    Send(Place, u64),
    Receive(Want),
    Print(u64),
    PrintAt(u32, u64),
    Set(Component),
    Clear,
    Look,
    Reset,
    Restore(Token),
    Tracer(bool),
}

#[derive(Clone, Copy)]
pub struct Act {
    pub actor: Place,
    pub deed: Deed,
}

/// A bundle without its acts: the listed pids, their events, and where these and the acts are in the text.
pub struct Streams {
    pub pids: Pids,
    pub events: Vec<Vec<Event>>,
    pub header: u8,
    pub text: Range<usize>,
    pub acts: Option<Range<usize>>,
}

/// The listed pids by rising number, with a table from pid to place.
pub struct Pids {
    pub listed: Vec<Pid>,
    table: Vec<(Pid, Place)>,
    shift: u32,
}

const EMPTY: Place = Place::MAX;

impl Pids {
    fn new(listed: Vec<Pid>) -> Pids {
        let bits = (2 * listed.len().max(1)).next_power_of_two().trailing_zeros() + 1;
        let mut pids = Pids { table: vec![(0, EMPTY); 1 << bits], shift: 32 - bits, listed };
        for place in 0..pids.listed.len() {
            let pid = pids.listed[place];
            let slot = pids.slot(pid);
            pids.table[slot] = (pid, place as Place);
        }
        pids
    }

    /// The slot that has the pid, or the empty one where it would be.
    fn slot(&self, pid: Pid) -> usize {
        let mut slot = (pid.wrapping_mul(0x9e37_79b1) >> self.shift) as usize;
        while self.table[slot].1 != EMPTY && self.table[slot].0 != pid {
            slot = (slot + 1) & (self.table.len() - 1);
        }
        slot
    }

    #[inline]
    pub fn place(&self, pid: Pid) -> Option<Place> {
        let place = self.table[self.slot(pid)].1;
        (place != EMPTY).then_some(place)
    }
}

/// The number of the first line that no bundle has there.
pub struct Fault {
    pub line: usize,
}

pub struct Cursor<'a> {
    bytes: &'a [u8],
    pub at: usize,
}

impl<'a> Cursor<'a> {
    pub fn new(bytes: &'a [u8], at: usize) -> Cursor<'a> {
        Cursor { bytes, at }
    }

    #[inline]
    fn takes(&mut self, word: &[u8]) -> bool {
        let is_there = self.bytes[self.at..].starts_with(word);
        self.at += if is_there { word.len() } else { 0 };
        is_there
    }

    #[inline]
    fn expect(&mut self, word: &[u8]) -> Option<()> {
        self.takes(word).then_some(())
    }

    #[inline]
    fn number(&mut self) -> Option<u64> {
        let begin = self.at;
        let mut value: u64 = 0;
        while let Some(digit) = self.bytes.get(self.at).map(|byte| byte.wrapping_sub(b'0')).filter(|&digit| digit < 10) {
            value = match self.at - begin {
                0..19 => value * 10 + u64::from(digit),
                _ => value.checked_mul(10)?.checked_add(u64::from(digit))?,
            };
            self.at += 1;
        }
        let has_leading_zero = self.at > begin + 1 && self.bytes[begin] == b'0';
        (self.at > begin && !has_leading_zero).then_some(value)
    }

    #[inline]
    fn label(&mut self) -> Option<u32> {
        u32::try_from(self.number()?).ok()
    }

    #[inline]
    fn pid(&mut self) -> Option<Pid> {
        self.expect(b"<")?;
        let node = u16::try_from(self.number()?).ok()?;
        self.expect(b".")?;
        let number = u16::try_from(self.number()?).ok()?;
        self.expect(b".0>")?;
        Some(u32::from(node) << 16 | u32::from(number))
    }

    fn truth(&mut self) -> Option<bool> {
        if self.takes(b"true") {
            return Some(true);
        }
        self.expect(b"false")?;
        Some(false)
    }

    #[inline]
    fn event(&mut self) -> Option<Event> {
        self.expect(b"{seq_trace,")?;
        let label = self.label()?;
        let kind = match self.bytes.get(self.at + 2)? {
            b's' => self.expect(b",{send,{").map(|()| Kind::Send)?,
            b'\'' => self.expect(b",{'receive',{").map(|()| Kind::Receive)?,
            _ => self.expect(b",{print,{").map(|()| Kind::Print)?,
        };
        let prev = self.number()?;
        self.expect(b",")?;
        let this = self.number()?;
        self.expect(b"},")?;
        let from = self.pid()?;
        self.expect(b",")?;
        let to = match kind {
            Kind::Print => self.expect(b"[]").map(|()| 0)?,
            _ => self.pid()?,
        };
        self.expect(b",")?;
        let value = self.number()?;
        self.expect(b"}}\n")?;
        Some(Event { value, prev, this, label, from, to, kind })
    }

    fn want(&mut self) -> Option<Want> {
        if self.takes(b"first") {
            return Some(Want::First);
        }
        if self.takes(b"place ") {
            return self.number().map(Want::Place);
        }
        if self.takes(b"value ") {
            return self.number().map(Want::Value);
        }
        if self.takes(b"from ") {
            return self.pid().map(Want::From);
        }
        self.expect(b"both ")?;
        let from = self.pid()?;
        self.expect(b" ")?;
        Some(Want::Both(from, self.number()?))
    }

    fn component(&mut self) -> Option<Component> {
        if self.takes(b"label ") {
            return self.label().map(Component::Label);
        }
        if self.takes(b"send ") {
            return self.truth().map(Component::Send);
        }
        if self.takes(b"receive ") {
            return self.truth().map(Component::Receive);
        }
        self.expect(b"print ")?;
        self.truth().map(Component::Print)
    }

    fn restored(&mut self) -> Option<Token> {
        let label = self.label()?;
        self.expect(b" ")?;
        let send = self.truth()?;
        self.expect(b" ")?;
        let receive = self.truth()?;
        self.expect(b" ")?;
        let print = self.truth()?;
        self.expect(b" ")?;
        let prev = self.number()?;
        self.expect(b" ")?;
        let this = self.number()?;
        self.expect(b" ")?;
        let from = self.pid()?;
        Some(Token { prev, this, label, from, flags: Flags { send, receive, print } })
    }

    /// An act's line; its pids are listed.
    #[inline]
    pub fn act(&mut self, pids: &Pids) -> Option<Act> {
        let word = self.bytes[self.at..].iter().take(8).position(|&byte| byte == b' ')?;
        let word = &self.bytes[self.at..self.at + word];
        self.at += word.len() + 1;
        let actor = self.pid().and_then(|pid| pids.place(pid))?;
        if !matches!(word, b"clear" | b"look" | b"reset") {
            self.expect(b" ")?;
        }
        let deed = match word {
            b"send" => {
                let to = self.pid().and_then(|pid| pids.place(pid))?;
                self.expect(b" ")?;
                Deed::Send(to, self.number()?)
            }
            b"receive" => Deed::Receive(self.want()?),
            b"print" => Deed::Print(self.number()?),
            b"printat" => {
                let label = self.label()?;
                self.expect(b" ")?;
                Deed::PrintAt(label, self.number()?)
            }
            b"set" => Deed::Set(self.component()?),
            b"clear" => Deed::Clear,
            b"look" => Deed::Look,
            b"reset" => Deed::Reset,
            b"restore" => Deed::Restore(self.restored()?),
            b"tracer" => Deed::Tracer(self.truth()?),
            _ => return None,
        };
        self.expect(b"\n")?;
        Some(Act { actor, deed })
    }
}

/// Which line of the text begins there, from 1.
pub fn line_of(bytes: &[u8], at: usize) -> Fault {
    Fault { line: 1 + bytes[..at.min(bytes.len())].iter().filter(|&&byte| byte == b'\n').count() }
}

/// Reads all but the acts.
pub fn read(bytes: &[u8]) -> Result<Streams, Fault> {
    let header = match bytes {
        [b's', b'e', b'q', b't', b'r', b'a', b'c', b'e', b' ', header @ (b'1' | b'2'), b'\n', ..] => *header,
        _ => return Err(Fault { line: 1 }),
    };
    let mut cursor = Cursor::new(bytes, 11);
    let (mut listed, mut events): (Vec<Pid>, Vec<Vec<Event>>) = (Vec::new(), Vec::new());
    let mut acts = None;
    while cursor.at < bytes.len() {
        let begin = cursor.at;
        match bytes[begin] {
            b'{' => {
                let event = cursor.event().ok_or_else(|| line_of(bytes, begin))?;
                let actor = if event.kind == Kind::Receive { event.to } else { event.from };
                let stream = events.last_mut().filter(|_| listed.last() == Some(&actor));
                stream.ok_or_else(|| line_of(bytes, begin))?.push(event);
            }
            b'p' => {
                let pid = cursor.expect(b"process ").and_then(|()| cursor.pid());
                let pid = pid.filter(|pid| listed.last().is_none_or(|last| last < pid));
                let pid = pid.filter(|_| cursor.takes(b"\n")).ok_or_else(|| line_of(bytes, begin))?;
                listed.push(pid);
                events.push(Vec::new());
            }
            _ => {
                cursor.expect(b"acts\n").ok_or_else(|| line_of(bytes, begin))?;
                acts = Some(cursor.at..bytes.len());
                break;
            }
        }
    }
    let end = acts.as_ref().map_or(bytes.len(), |acts: &Range<usize>| acts.start - 5);
    let pids = Pids::new(listed);
    for event in events.iter().flatten() {
        let other = if event.kind == Kind::Send { event.to } else { event.from };
        pids.place(other).ok_or(Fault { line: 0 })?;
    }
    Ok(Streams { pids, events, header, text: 11..end, acts })
}
