//! All commands on malformed texts, with malformed names and times or without, in one process: none
//! may panic, or write half an object.
//!
//! `GEMSHOWAL_FUZZ` says how many texts, and `GEMSHOWAL_SEED` which: `cargo test --release fuzz`.

use crate::args::Args;
use crate::output::{Notes, Output};
use crate::{run_on_path, Status};
use clap::Parser;
use gemshowal::{Paired, Partner, Text, Trace};
use std::cell::RefCell;
use std::io::{self, Write};
use std::path::Path;
use std::rc::Rc;
use std::{env, fs, process};

/// The number of texts that are tried if nothing else is asked for.
const TEXTS: u64 = 2_000;

/// The pieces that a mistake puts into a text, with bars between them.
const PIECES: &[u8] = b"<1.2.0>|<0.7|<70000.1.0>|<03.1.0>|#Pid<|'receive',|receive,|\xe2\x80\x98|\xc2\xa0\
    |\r|\r\n|\n| |\t|acts\n|process <0.30.0>\n|process <3.30.1>\n|seqtrace 2\n|%|18446744073709551615\
    |18446744073709551616|0|{0,1}|{|}|,|[]|printat <0.30.0> |receive <0.30.0> both \
    |restore <0.30.0> 1 true false |\0|\xef\xbb\xbf|reset <0.31.0>\n|send <0.30.0> <0.31.0> 7\n\
    |value\t3\t|label\t|'Elixir.|#{'__struct__' => '|<<\"|\\|\xc3\xb6|{'$gen_call',{<0.81.0>,#Ref<0.1.2>},\
    |begin -1\n|message <0.81.0> 0 <0.85.0> 0 -9223372036854775808\n|#Ref<0.1.2>,|lost\t";

/// The command lines that are tried on each text, with bars between them. The name of the text
/// comes after them, or in place of IT; ALL is the text that it was made of.
const COMMANDS: &str = "audit|audit --json|audit --each-label|audit --each-label --json|\
    audit --label 17|audit --process 0.30.0 --json|check|check --json|complete|complete --json|\
    complete --as streams|complete --as acts|cut --label 17|cut --lines 2-5|cut IT --around 4|\
    cut --from 0|explain|explain --json|lint|lint --json --most 50|lint --fix|list|\
    list --json --counts 1-|stats|stats --json|\
    export --as mermaid|export --as dot|export --as perfetto|export --as shiviz|export --as otlp|\
    why IT 3|why IT 4 --effects --json|chart|chart --label 1000000|diff IT ALL --json|page|times|\
    times --json|why IT shop#2|list --label {order,7}";

/// Numbers that look like chance (xorshift).
struct Chance(u64);

impl Chance {
    fn below(&mut self, most: usize) -> usize {
        self.0 ^= self.0 << 13;
        self.0 ^= self.0 >> 7;
        self.0 ^= self.0 << 17;
        (self.0 % most.max(1) as u64) as usize
    }

    fn with_mistake(&mut self, text: &[u8]) -> Vec<u8> {
        let at = self.below(text.len() + 1);
        let (front, rest) = text.split_at(at);
        let behind = |count: usize| rest.get(count.min(rest.len())..).unwrap_or_default();
        match self.below(7) {
            0 => [front, behind(1 + self.below(20))].concat(),
            1 | 2 => [front, self.piece(), behind(self.below(3))].concat(),
            3 => front.to_vec(),
            4 => {
                let mut lines: Vec<&[u8]> = text.split(|&byte| byte == b'\n').collect();
                let (one, other) = (self.below(lines.len()), self.below(lines.len()));
                lines.swap(one, other);
                lines.join(&b'\n')
            }
            5 => self.with_number(text),
            _ => [front, &[self.below(256) as u8], behind(1)].concat(),
        }
    }

    fn piece(&mut self) -> &'static [u8] {
        let pieces = || PIECES.split(|&byte| byte == b'|');
        pieces().nth(self.below(pieces().count())).unwrap()
    }

    /// Replaces a digit of a text by another: often it is still a trace.
    fn with_number(&mut self, text: &[u8]) -> Vec<u8> {
        let digits: Vec<usize> = (0..text.len()).filter(|&at| text[at].is_ascii_digit()).collect();
        let mut text = text.to_vec();
        if let Some(&at) = digits.get(self.below(digits.len())) {
            text[at] = b'0' + self.below(10) as u8;
        }
        text
    }
}

/// A trace, and the files beside it by their extensions.
struct Example {
    text: Vec<u8>,
    beside: Vec<(&'static str, Vec<u8>)>,
}

impl Example {
    fn of(path: &Path) -> Example {
        let text = fs::read(path).unwrap();
        let trace = Trace::read(&text[..]);
        let beside = |extension| Some((extension, fs::read(path.with_extension(extension)).ok()?));
        let mut beside: Vec<_> = ["terms", "facts"].into_iter().filter_map(beside).collect();
        if let (Ok(trace), Some((_, terms))) = (trace, beside.first()) {
            let messages = String::from_utf8_lossy(terms).into_owned();
            let values = messages.lines().filter(|line| line.starts_with("value"));
            let values: String = values.map(|line| format!("{line}, whole\n")).collect();
            beside.push(("messages", format!("seqaudit messages 1\n{values}").into()));
            beside.push(("times", times_of(&trace).into()));
        }
        Example { text, beside }
    }

    /// Writes a text that may have mistakes, with the files beside it and without.
    fn write(&self, chance: &mut Chance, folder: &Path) {
        let mut put = |extension: &str, text: &[u8], most: usize| {
            let mut text = text.to_vec();
            for _ in 0..chance.below(most) {
                text = chance.with_mistake(&text);
            }
            fs::write(folder.join("it").with_extension(extension), text).unwrap();
        };
        put("seqtrace", &self.text, 6);
        for (extension, text) in &self.beside {
            put(extension, text, 3);
        }
        fs::copy(folder.join("it.seqtrace"), folder.join("it.txt")).unwrap();
        fs::write(folder.join("all.txt"), &self.text).unwrap();
    }
}

/// Returns times that the events and the messages of a trace may have.
fn times_of(trace: &Trace) -> String {
    let mut text = "seqaudit times 1\nbegin 1795742538123456789\n".to_owned();
    let paired = Paired::if_possible(trace.streams()).unwrap();
    for ((pid, index), event) in trace.events() {
        text += &format!("event {} {index} {}\n", Text(pid), 1_000 * event.serial.this);
        let partner = |paired: &Paired<'_>| paired.partner((pid, index), event.kind);
        if let Some(Partner::Send(from, sent)) = paired.as_ref().map(partner) {
            text += &format!("message {} {sent} {} {index} 350\n", Text(from), Text(pid));
        }
    }
    text
}

fn examples() -> Vec<Example> {
    // The package may be built in its own folder, or in the workspace that a script writes.
    let folders = Path::new(env!("CARGO_MANIFEST_DIR")).ancestors().map(|it| it.join("examples"));
    let folder = folders.into_iter().find(|it| it.join("order.seqtrace").exists()).unwrap();
    let mut paths: Vec<_> =
        fs::read_dir(folder).unwrap().map(|entry| entry.unwrap().path()).collect();
    paths.sort();
    let is_trace = |path: &Path| path.extension().is_some_and(|it| it == "txt" || it == "seqtrace");
    paths.iter().filter(|path| is_trace(path)).map(|path| Example::of(path)).collect()
}

#[derive(Clone, Default)]
struct Written(Rc<RefCell<Vec<u8>>>);

impl Write for Written {
    fn write(&mut self, bytes: &[u8]) -> io::Result<usize> {
        self.0.borrow_mut().write(bytes)
    }

    fn flush(&mut self) -> io::Result<()> {
        Ok(())
    }
}

fn command(words: &str, folder: &Path, it: &str) -> Args {
    let it_last = (!words.contains("IT")).then_some("IT");
    let path = |word| match word {
        "IT" => folder.join(it),
        "ALL" => folder.join("all.txt"),
        word => word.into(),
    };
    let words = ["gemshowal"].into_iter().chain(words.split(' ')).chain(it_last);
    Args::try_parse_from(words.map(path)).unwrap()
}

/// Does a command, and returns whether the status is a yes. Any object is whole.
fn run(word: &str, args: &Args) -> bool {
    let written = Written::default();
    let mut out = Output::new(Box::new(written.clone()), word, false);
    let ended = run_on_path(args, &args.command.files()[0], &mut out, &mut Notes::default());
    if args.json {
        let object: serde_json::Value = serde_json::from_slice(&written.0.borrow()).unwrap();
        assert_eq!(object["command"], *word);
    }
    matches!(ended, Ok(Status::Yes))
}

fn number(variable: &str) -> Option<u64> {
    env::var(variable).ok()?.parse().ok()
}

#[test]
fn fuzz_no_command_panics_on_a_malformed_text() {
    let folder = env::temp_dir().join(format!("gemshowal-fuzz-{}", process::id()));
    fs::create_dir_all(&folder).unwrap();
    let commands =
        |it| COMMANDS.split('|').map(|words| command(words, &folder, it)).collect::<Vec<_>>();
    let (named, bare) = (commands("it"), commands("it.txt"));
    let mut yes = vec![0; named.len()];
    let examples = examples();
    let mut chance = Chance(number("GEMSHOWAL_SEED").unwrap_or(20_261_130));
    for _ in 0..number("GEMSHOWAL_FUZZ").unwrap_or(TEXTS) {
        let example = &examples[chance.below(examples.len())];
        example.write(&mut chance, &folder);
        let is_named = !example.beside.is_empty() && chance.below(4) > 0;
        let commands = if is_named { &named } else { &bare };
        for ((args, words), yes) in commands.iter().zip(COMMANDS.split('|')).zip(&mut yes) {
            *yes += u64::from(run(words.split(' ').next().unwrap(), args));
        }
    }
    fs::remove_dir_all(&folder).unwrap();
    let unfit: Vec<_> = COMMANDS.split('|').zip(yes).filter(|(_, yes)| *yes == 0).collect();
    assert!(unfit.is_empty(), "no text is one that these take: {unfit:?}");
}
