//! Terms as Elixir's `inspect` writes them on one line, made of the texts that Erlang prints:
//! `:ok`, `"text"` for a binary, `%Shop.Order{item: "apple"}`, `[a: 1]`, `#PID<0.80.0>`.
//!
//! A text that is cut, or that is no term, is written as far as it goes. What only the traced
//! program knows isn't in the text: how its structs inspect themselves, in which order they define
//! their fields, and what funs are called.

use super::files;
use std::borrow::Cow;

/// The beginning of the name of an Elixir module in Erlang.
const MODULE: &str = "'Elixir.";
const PREFIX: &str = "Elixir.";

/// The number of terms in one another that are read. What is deeper is written as words.
const DEPTH: usize = 100;

/// The atoms without letters that Elixir writes without quotes, with blanks between.
const OPERATORS: &str =
    " ! != !== % %{} & && &&& * ** + ++ +++ - -- --- -> . .. ... / < <- << <<< \
    <<>> <<~ <= <> <|> <~ <~> = == === =~ > >= >>> @ ^ ^^^ {} | |> || ||| ~> ~>> ~~~ ";

pub(super) fn is_elixir(text: &str) -> bool {
    text.contains(MODULE)
}

pub(super) fn name(name: &str) -> String {
    let mut named = String::with_capacity(name.len());
    let mut rest = name;
    while let Some((before, behind)) = rest.split_once(MODULE) {
        let (module, after) = behind.split_once('\'').unwrap_or((behind, ""));
        named.push_str(before);
        named.push_str(module);
        rest = after;
    }
    named + rest
}

pub(super) fn text(term: &str) -> String {
    let mut written = String::with_capacity(term.len());
    let mut reader = Reader { rest: term, depth: 0 };
    while let Some(first) = reader.rest.chars().next() {
        match reader.term() {
            Some(term) => written += &term.text(),
            None => {
                written.push(first);
                reader.rest = &reader.rest[first.len_utf8()..];
            }
        }
    }
    written
}

enum Term<'a> {
    Atom(Cow<'a, str>),
    /// A tuple of an atom that may be a key, by its name, and of a term, by its text.
    Pair(String, String),
    /// Another term, as Elixir writes it.
    Text(String),
}

/// The parts between two brackets.
struct Parts<T> {
    parts: Vec<T>,
    /// The tail of an improper list, and the closing bracket unless the text was cut.
    end: Cow<'static, str>,
    is_proper: bool,
}

struct Reader<'a> {
    rest: &'a str,
    depth: usize,
}

impl<'a> Reader<'a> {
    fn term(&mut self) -> Option<Term<'a>> {
        if self.depth == DEPTH {
            return None;
        }
        let text = match self.rest.chars().next()? {
            '{' => return self.tuple(),
            '[' => self.list()?,
            '#' if self.rest.starts_with("#{") => self.map()?,
            '#' => self.identified().or_else(|| self.identified_fun())?,
            '<' => self.binary().or_else(|| self.pid())?,
            '"' => self.quoted('"').map_or_else(|| self.cut(), |text| characters(&text)),
            '\'' => match self.quoted('\'') {
                Some(name) => return Some(Term::Atom(name.into())),
                None => self.cut(),
            },
            '.' => self.strip("...").then(|| "...".into())?,
            'a'..='z' | 'ß'..='ö' | 'ø'..='ÿ' => match self.named_fun() {
                Some(fun) => fun,
                None => return Some(Term::Atom(self.bare().into())),
            },
            '-' | '0'..='9' | 'A'..='Z' | '_' => number(self.word()),
            _ => return None,
        };
        Some(Term::Text(text))
    }

    /// Takes this text off, if it is next.
    fn strip(&mut self, text: &str) -> bool {
        let rest = self.rest.strip_prefix(text);
        self.rest = rest.unwrap_or(self.rest);
        rest.is_some()
    }

    fn take(&mut self, size: usize) -> &'a str {
        let (taken, rest) = self.rest.split_at(size);
        self.rest = rest;
        taken
    }

    /// Takes the characters off that come before the first one that doesn't fit.
    fn take_while(&mut self, fits: impl Fn(char) -> bool) -> &'a str {
        self.take(self.rest.find(|c| !fits(c)).unwrap_or(self.rest.len()))
    }

    /// Reads what is between these brackets, with commas between.
    fn parts<T>(
        &mut self,
        open: &str,
        close: &'static str,
        read: fn(&mut Reader<'a>) -> Option<T>,
    ) -> Option<Parts<T>> {
        if !self.strip(open) {
            return None;
        }
        self.depth += 1;
        let mut parts: Vec<T> = Vec::new();
        while let Some(part) = read(self) {
            parts.push(part);
            if !self.strip(",") {
                break;
            }
        }
        let tail = if self.strip("|") { self.term() } else { None };
        self.depth -= 1;
        let is_whole = self.strip(close);
        let close = if is_whole { close } else { "" };
        let is_proper = is_whole && tail.is_none();
        let end = tail.map_or(close.into(), |tail| format!(" | {}{close}", tail.text()).into());
        Some(Parts { parts, end, is_proper })
    }

    fn tuple(&mut self) -> Option<Term<'a>> {
        let Parts { parts, end, is_proper } = self.parts("{", "}", Reader::term)?;
        if let ([key, value], true) = (&parts[..], is_proper) {
            if let Some(key) = key.key() {
                return Some(Term::Pair(key.into(), value.text().into()));
            }
        }
        Some(Term::Text(format!("{{{}{end}", separated(parts.iter().map(Term::text)))))
    }

    /// Reads a list: of small numbers that are the characters of a text, of pairs, or another.
    fn list(&mut self) -> Option<String> {
        let Parts { parts, end, is_proper } = self.parts("[", "]", Reader::term)?;
        if is_proper && !parts.is_empty() {
            let characters_of = parts.iter().map(|part| match part {
                Term::Text(text) => text.parse::<u8>().ok().map(char::from),
                _ => None,
            });
            let text: Option<String> = characters_of.collect();
            if let Some(text) = text.filter(|text| is_of_characters(text)) {
                return Some(characters(&text));
            }
            let entries = parts.iter().map(|part| match part {
                Term::Pair(key, value) => Some(format!("{}: {value}", unquoted_if_bare(key))),
                _ => None,
            });
            if let Some(entries) = entries.collect::<Option<Vec<_>>>() {
                return Some(format!("[{}]", entries.join(", ")));
            }
        }
        Some(format!("[{}{end}", separated(parts.iter().map(Term::text))))
    }

    fn map(&mut self) -> Option<String> {
        let Parts { parts, end, .. } = self.parts("#{", "}", Reader::pair)?;
        let module = parts.iter().find_map(|(key, value)| match (key.name(), value) {
            (Some("__struct__"), Some(value)) => value.name(),
            _ => None,
        });
        let is_field = |(key, _): &&(Term<'_>, _)| {
            module.is_none() || !matches!(key.name(), Some("__struct__" | "__exception__"))
        };
        let shown = || parts.iter().filter(is_field);
        let has_keys = shown().all(|(key, _)| key.key().is_some());
        let pair = |(key, value): &(Term<'_>, Option<Term<'_>>)| {
            let value = value.as_ref().map_or("".into(), Term::text);
            match key.key() {
                Some(key) if has_keys => format!("{}: {value}", unquoted_if_bare(key)),
                _ => format!("{} => {value}", key.text()),
            }
        };
        let name = module.map_or(String::new(), atom);
        Some(format!("%{name}{{{}{end}", separated(shown().map(pair))))
    }

    /// Reads a key, and its value unless the text was cut before it.
    fn pair(&mut self) -> Option<(Term<'a>, Option<Term<'a>>)> {
        let key = self.term()?;
        Some((key, if self.strip(" => ") { self.term() } else { None }))
    }

    /// Reads a reference or a port.
    fn identified(&mut self) -> Option<String> {
        let known = [("#Ref<", "#Reference<"), ("#Port<", "#Port<")];
        let (_, name) = known.into_iter().find(|(open, _)| self.strip(open))?;
        let numbers = self.take_while(|c| c.is_alphanumeric() || "_@.-".contains(c));
        let close = if self.strip(">") { ">" } else { "" };
        Some(format!("{name}{numbers}{close}"))
    }

    fn identified_fun(&mut self) -> Option<String> {
        let mut reader = Reader { rest: self.rest.strip_prefix("#Fun<")?, depth: 0 };
        let module = reader.name();
        let numbers = reader.take_while(|c| c.is_ascii_digit() || c == '.').strip_prefix('.')?;
        self.rest = reader.rest.strip_prefix('>')?;
        Some(format!("#Function<{numbers} in {}>", atom(&module)))
    }

    /// Takes the rest of a text that was cut between quotes.
    fn cut(&mut self) -> String {
        self.take(self.rest.len()).into()
    }

    /// Reads a binary: of text, of bytes, or with some bits at its end.
    fn binary(&mut self) -> Option<String> {
        let mut reader = Reader { rest: self.rest.strip_prefix("<<")?, depth: 0 };
        let shown = match reader.quoted('"') {
            Some(text) if reader.strip("/utf8") => bytes(text.as_bytes()),
            Some(text) => bytes(&latin1(&text)),
            None if reader.rest.starts_with('"') => return Some(self.cut()),
            None => numbered(reader.take_while(|c| c.is_ascii_digit() || ",:".contains(c)))?,
        };
        self.rest = reader.rest.strip_prefix(">>")?;
        Some(shown)
    }

    /// Reads a pid. That of a process without an event has the name of its node in front.
    fn pid(&mut self) -> Option<String> {
        let mut reader = Reader { rest: self.rest.strip_prefix('<')?, depth: 0 };
        let pid = reader.take_while(|c| c.is_alphanumeric() || "_@.-".contains(c));
        let rest = reader.rest.strip_prefix('>')?;
        let mut numbers = pid.rsplitn(3, '.');
        let mut is_number = || numbers.next().and_then(files::number).is_some();
        let is_pid = is_number() && is_number() && numbers.next().is_some_and(|it| !it.is_empty());
        is_pid.then(|| {
            self.rest = rest;
            format!("#PID<{pid}>")
        })
    }

    fn quoted(&mut self, quote: char) -> Option<String> {
        let inner = self.rest.strip_prefix(quote)?;
        let mut is_escaped = false;
        let end = inner.find(|c| {
            let is_end = c == quote && !is_escaped;
            is_escaped = c == '\\' && !is_escaped;
            is_end
        })?;
        self.rest = &inner[end + quote.len_utf8()..];
        Some(unescaped(&inner[..end]))
    }

    fn named_fun(&mut self) -> Option<String> {
        if !self.strip("fun ") {
            return None;
        }
        let module = self.name();
        self.strip(":");
        let function = unquoted_if_bare(&self.name());
        let arity = self.take_while(|c| c.is_ascii_digit() || c == '/');
        Some(format!("&{}.{function}{arity}", atom(&module)))
    }

    fn name(&mut self) -> String {
        self.quoted('\'').unwrap_or_else(|| self.bare().into())
    }

    fn bare(&mut self) -> &'a str {
        self.take_while(|c| c.is_alphanumeric() || c == '_' || c == '@')
    }

    /// Takes a number, or a word that is none of Erlang's.
    fn word(&mut self) -> &'a str {
        let mut before = ' ';
        let end = self.rest.find(|c: char| {
            let is_sign = c == '-' && " e".contains(before) || c == '+' && before == 'e';
            before = c;
            !is_sign && !c.is_ascii_alphanumeric() && !"_@.#".contains(c)
        });
        self.take(end.unwrap_or(self.rest.len()))
    }
}

/// Returns a number as Elixir writes it: without an exponent, if it is whole and not too large.
fn number(word: &str) -> String {
    let is_short = |float: &f64| (1.0..1e16).contains(&float.abs()) && float.fract() == 0.0;
    match word.parse().ok().filter(is_short) {
        Some(float) if word.contains('e') => format!("{float:.1}"),
        _ => word.into(),
    }
}

/// Returns the bytes of a binary by its numbers, or those of its last bits: `1,2:3`.
fn numbered(words: &str) -> Option<String> {
    if let Some((front, size)) = words.split_once(':') {
        return Some(format!("<<{}::size({size})>>", front.replace(',', ", ")));
    }
    let numbers = words.split(',').filter(|it| !it.is_empty()).map(str::parse);
    Some(bytes(&numbers.collect::<Result<Vec<u8>, _>>().ok()?))
}

/// Returns the bytes of a text without `/utf8`.
fn latin1(text: &str) -> Vec<u8> {
    let bytes: Result<_, _> = text.chars().map(u8::try_from).collect();
    bytes.unwrap_or_else(|_| text.into())
}

/// The characters that both languages escape, each by the letter at its place.
const ESCAPED: [char; 10] =
    ['\0', '\x07', '\x08', '\x7F', '\x1B', '\x0C', '\n', '\r', '\t', '\x0B'];
const LETTERS: [char; 10] = ['0', 'a', 'b', 'd', 'e', 'f', 'n', 'r', 't', 'v'];

fn letter_of(c: char) -> Option<char> {
    ESCAPED.iter().position(|&escaped| escaped == c).map(|at| LETTERS[at])
}

/// Returns the characters that a text of Erlang's between quotes means.
fn unescaped(text: &str) -> String {
    let mut unescaped = String::with_capacity(text.len());
    let mut rest = text;
    while let Some((before, behind)) = rest.split_once('\\') {
        unescaped.push_str(before);
        let (c, after) = escape(behind);
        unescaped.push(c);
        rest = after;
    }
    unescaped + rest
}

/// Returns the character of an escape, by what is behind the backslash, and the rest.
fn escape(text: &str) -> (char, &str) {
    let number = |digits, base| {
        let code = u32::from_str_radix(digits, base).ok();
        code.and_then(char::from_u32).unwrap_or(char::REPLACEMENT_CHARACTER)
    };
    if let Some(code) = text.strip_prefix("x{") {
        let size = code.find(|c: char| !c.is_ascii_hexdigit()).unwrap_or(code.len());
        let rest = code[size..].strip_prefix('}').unwrap_or(&code[size..]);
        return (number(&code[..size], 16), rest);
    }
    let is_octal = |c| ('0'..='7').contains(&c);
    let octal = text.find(|c| !is_octal(c)).unwrap_or(text.len()).min(3);
    if octal > 0 {
        return (number(&text[..octal], 8), &text[octal..]);
    }
    let mut rest = text.chars();
    let meant = match rest.next().unwrap_or('\\') {
        's' => ' ',
        // Erlang has no such escape.
        'a' => 'a',
        letter => LETTERS.iter().position(|&it| it == letter).map_or(letter, |at| ESCAPED[at]),
    };
    (meant, rest.as_str())
}

/// Returns a text as Elixir writes it between double quotes.
fn escaped(text: &str) -> String {
    let mut escaped = String::with_capacity(text.len());
    let mut rest = text.chars().peekable();
    while let Some(c) = rest.next() {
        match (c, letter_of(c)) {
            (_, Some(letter)) => escaped.extend(['\\', letter]),
            ('"' | '\\', _) => escaped.extend(['\\', c]),
            ('#', _) if rest.peek() == Some(&'{') => escaped.push_str("\\#"),
            _ if c.is_control() => escaped += &format!("\\x{:02X}", u32::from(c)),
            _ if is_invisible(c) => escaped += &format!("\\u{:04X}", u32::from(c)),
            _ => escaped.push(c),
        }
    }
    escaped
}

/// Returns whether nobody sees the character, or it turns the direction of writing.
fn is_invisible(c: char) -> bool {
    matches!(
        c,
        '\u{A0}' | '\u{34F}' | '\u{61C}' | '\u{2000}'..='\u{200F}' | '\u{2028}'..='\u{202E}'
            | '\u{205F}'..='\u{2064}' | '\u{2066}'..='\u{2069}' | '\u{FEFF}'
            | '\u{FFF9}'..='\u{FFFC}'
    )
}

/// Returns whether Elixir writes a binary of these characters as a text.
fn is_printable(text: &str) -> bool {
    let is_escaped = |c| c != '\0' && letter_of(c).is_some();
    text.chars().all(|c| is_escaped(c) || !c.is_control() && !['\u{FFFE}', '\u{FFFF}'].contains(&c))
}

/// Returns whether Elixir writes a list of these characters as a text.
fn is_of_characters(text: &str) -> bool {
    text.is_ascii() && is_printable(text) && !text.contains('\x7F')
}

/// Returns whether Elixir writes an atom of this name without quotes.
fn is_bare(name: &str) -> bool {
    let front = name.strip_suffix(['?', '!']).unwrap_or(name);
    let is_name = front.starts_with(|c: char| c.is_alphabetic() || c == '_')
        && front.chars().all(|c| c.is_alphanumeric() || c == '_' || c == '@');
    is_name || OPERATORS.split(' ').any(|it| !it.is_empty() && it == name)
}

fn unquoted_if_bare(name: &str) -> String {
    match is_bare(name) {
        true => name.into(),
        false => format!("\"{}\"", escaped(name)),
    }
}

fn atom(name: &str) -> String {
    let is_module = |it: &&str| {
        it.split('.').all(|part| {
            part.starts_with(|c: char| c.is_ascii_uppercase())
                && part.chars().all(|c| c.is_ascii_alphanumeric() || c == '_')
        })
    };
    match name.strip_prefix(PREFIX).filter(is_module) {
        Some(module) => module.into(),
        None if ["nil", "true", "false", "Elixir"].contains(&name) => name.into(),
        None => format!(":{}", unquoted_if_bare(name)),
    }
}

fn bytes(bytes: &[u8]) -> String {
    match std::str::from_utf8(bytes) {
        Ok(text) if is_printable(text) => format!("\"{}\"", escaped(text)),
        _ => format!("<<{}>>", separated(bytes)),
    }
}

fn characters(text: &str) -> String {
    match is_of_characters(text) {
        true => format!("~c\"{}\"", escaped(text)),
        false => format!("[{}]", separated(text.chars().map(u32::from))),
    }
}

fn separated<T: ToString>(parts: impl IntoIterator<Item = T>) -> String {
    parts.into_iter().map(|it| it.to_string()).collect::<Vec<_>>().join(", ")
}

impl Term<'_> {
    fn text(&self) -> Cow<'_, str> {
        match self {
            Term::Atom(name) => atom(name).into(),
            Term::Pair(key, value) => format!("{{{}, {value}}}", atom(key)).into(),
            Term::Text(text) => text.into(),
        }
    }

    fn name(&self) -> Option<&str> {
        match self {
            Term::Atom(name) => Some(name),
            _ => None,
        }
    }

    /// Returns the name of an atom that may be a key: of one that names no module.
    fn key(&self) -> Option<&str> {
        self.name().filter(|name| !name.starts_with(PREFIX))
    }
}
