//! Text out: a buffer that standard output gets in pieces.

use crate::bundle::{Event, Kind, Pid};
use std::io::{self, Write};

const PIECE: usize = 1 << 16;

pub struct Writer<W: Write> {
    out: W,
    buffer: Vec<u8>,
}

pub fn put_number(text: &mut Vec<u8>, mut number: u64) {
    let mut digits = [0; 20];
    let mut begin = digits.len();
    loop {
        begin -= 1;
        digits[begin] = b'0' + (number % 10) as u8;
        number /= 10;
        if number == 0 {
            break;
        }
    }
    text.extend_from_slice(&digits[begin..]);
}

pub fn put_pid(text: &mut Vec<u8>, pid: Pid) {
    text.push(b'<');
    put_number(text, u64::from(pid >> 16));
    text.push(b'.');
    put_number(text, u64::from(pid & 0xffff));
    text.extend_from_slice(b".0>");
}

pub fn put_serial(text: &mut Vec<u8>, prev: u64, this: u64) {
    text.push(b'{');
    put_number(text, prev);
    text.push(b',');
    put_number(text, this);
    text.push(b'}');
}

pub fn put_event(text: &mut Vec<u8>, event: &Event) {
    text.extend_from_slice(b"{seq_trace,");
    put_number(text, u64::from(event.label));
    text.extend_from_slice(match event.kind {
        Kind::Send => b",{send,",
        Kind::Receive => b",{'receive',",
        Kind::Print => b",{print,",
    });
    put_serial(text, event.prev, event.this);
    text.push(b',');
    put_pid(text, event.from);
    text.push(b',');
    match event.kind {
        Kind::Print => text.extend_from_slice(b"[]"),
        _ => put_pid(text, event.to),
    }
    text.push(b',');
    put_number(text, event.value);
    text.extend_from_slice(b"}}");
}

impl<W: Write> Writer<W> {
    pub fn new(out: W) -> Writer<W> {
        Writer { out, buffer: Vec::with_capacity(2 * PIECE) }
    }

    /// Puts a line, which the closure writes without its newline.
    #[inline]
    pub fn line(&mut self, put: impl FnOnce(&mut Vec<u8>)) -> io::Result<()> {
        put(&mut self.buffer);
        self.buffer.push(b'\n');
        if self.buffer.len() < PIECE {
            return Ok(());
        }
        self.out.write_all(&self.buffer)?;
        self.buffer.clear();
        Ok(())
    }

    pub fn text(&mut self, text: &[u8]) -> io::Result<()> {
        self.out.write_all(&self.buffer)?;
        self.buffer.clear();
        self.out.write_all(text)
    }

    pub fn flush(&mut self) -> io::Result<()> {
        self.text(b"")?;
        self.out.flush()
    }
}
