//! Each command of both programs as a library's caller has it, in a thread with a stack of 128 KB: `run` of `st_commands`,
//! and `read_words` and `run` of `seqtool_commands`. What it writes and returns has to be what it does with ample room.
//! A thread that overflows its stack ends the whole test by a signal. That is promised of a release build.
#![cfg(not(debug_assertions))]

use seqtool_commands::{read_words, run as run_seqtool};
use st_commands::run as run_seqaudit;
use st_core::{MemorySink, MemorySource};
use st_library::prelude::{AllocGlobal, HostRuntime};
use std::fmt::Write;
use std::thread::{self, Builder};

const SMALL: usize = 128 << 10;
const AMPLE: usize = 64 << 20;
const PROCESSES: usize = 400;
const MESSAGES: usize = 10_000;
/// More bytes than a command writes here.
const ROOM: usize = 64 << 20;

/// The commands on streams alone, as the words of the command line.
const OF_STREAMS: &str = "
seqtool audit
seqtool complete
seqtool complete --as streams
seqtool complete --as acts
seqtool renumber
seqtool why 0.31.0 0
seqtool why 0.31.0 0 --effects
seqaudit audit
seqaudit chart --label 17";

/// The commands on streams with acts.
const OF_ACTS: &str = "
seqtool check
seqaudit check
seqaudit replay
seqaudit drive";

/// The commands on texts with mistakes.
const OF_MISTAKES: &str = "
seqtool check
seqaudit check";

/// The output of a call, and the status that it returned.
type Answer = (Vec<u8>, u8);

fn sink(rt: &HostRuntime) -> MemorySink {
    MemorySink::new(rt.alloc(), ROOM, None).expect("room for the output")
}

fn seqaudit(words: &[&str], text: &[u8]) -> Answer {
    let rt = HostRuntime::new();
    let (mut reader, mut writer) = (MemorySource::new(text, None), sink(&rt));
    let status = run_seqaudit(&rt, words, &mut reader, &mut writer);
    (writer.written().to_vec(), status)
}

fn seqtool(words: &[&str], text: &[u8]) -> Answer {
    let rt = HostRuntime::new();
    let (task, _) = read_words(words).expect("words that are understood");
    let (mut reader, mut writer) = (MemorySource::new(text, None), sink(&rt));
    let status = run_seqtool(&rt, task, &mut reader, &mut writer);
    (writer.written().to_vec(), status)
}

/// Does what a line of words asks for in a thread with a stack of this many bytes.
fn within(stack: usize, line: &str, text: &[u8]) -> Answer {
    let words: Vec<&str> = line.split(' ').collect();
    let call = || if words[0] == "seqaudit" { seqaudit(&words, text) } else { seqtool(&words, text) };
    thread::scope(|scope| {
        let thread = Builder::new().stack_size(stack).spawn_scoped(scope, call);
        thread.expect("a thread").join().expect("a call that returns")
    })
}

/// Tries each line of words on a text. Which run `drive` writes is the threads' choice.
fn expect_the_same(lines: &str, text: &[u8]) {
    for line in lines.trim().lines() {
        let (ample, narrow) = (within(AMPLE, line, text), within(SMALL, line, text));
        assert_eq!(ample.1, narrow.1, "the status of {line}");
        assert!(line == "seqaudit drive" || ample.0 == narrow.0, "what {line} writes");
        assert!(narrow.1 != 3 && narrow.1 != 4, "the status of {line} is {}", narrow.1);
    }
}

/// A message goes round, and each event is reported.
fn ring() -> String {
    let pid = |n: usize| format!("<0.{}.0>", 30 + n % PROCESSES);
    let mut text = String::from("seqtrace 1\n");
    for process in 0..PROCESSES {
        let (me, before, after) = (pid(process), pid(process + PROCESSES - 1), pid(process + 1));
        writeln!(text, "process {me}").unwrap();
        for n in (process..=MESSAGES).step_by(PROCESSES) {
            if n > 0 {
                writeln!(text, "{{seq_trace,17,{{'receive',{{{},{n}}},{before},{me},{n}}}}}", n - 1).unwrap();
            }
            if n < MESSAGES {
                writeln!(text, "{{seq_trace,17,{{send,{{{n},{}}},{me},{after},{}}}}}", n + 1, n + 1).unwrap();
            }
        }
    }
    text
}

#[test]
fn streams() {
    let text = ring();
    let receives_lost: String = text.lines().enumerate().filter(|(n, line)| n % 7 > 0 || !line.contains("receive"))
        .flat_map(|(_, line)| [line, "\n"]).collect();
    expect_the_same(OF_STREAMS, text.as_bytes());
    expect_the_same(OF_STREAMS, receives_lost.as_bytes());
}

#[test]
fn acts() {
    let (certificate, status) = within(AMPLE, "seqaudit audit", ring().as_bytes());
    assert_eq!(status, 0);
    let mut differs = certificate.clone();
    differs.extend_from_slice(b"print <0.30.0> 7\n");
    expect_the_same(OF_ACTS, &certificate);
    expect_the_same(OF_ACTS, &differs);
}

#[test]
fn mistakes() {
    let text: String = ring().lines().enumerate().map(|(n, line)| match n % 4 {
        0 => format!("{line}\r\n"),
        1 => line.replace(',', ", ") + "\n",
        2 => line.replace("17", "x") + "\n",
        _ => format!("{line}\n"),
    }).collect();
    expect_the_same(OF_MISTAKES, text.as_bytes());
}
