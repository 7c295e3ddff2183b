//! The command `page`: a trace as one HTML file to look at, of all labels, however many rows it
//! has.
//!
//! The page needs no network and takes none: its policy allows its own script and style and nothing
//! else. What came from the trace is in it as data, in which no character can end the element that
//! it is in, and the script puts it into the page as text.

mod data;

use crate::args::Page as Args;
use crate::causes::{with_causes, Links};
use crate::names::Messages;
use crate::output::keep;
use crate::view::View;
use crate::{Ended, Status, Task};
use data::Data;
use std::collections::hash_map::RandomState;
use std::hash::{BuildHasher, Hasher};
use std::io::Write;

const FRAME: &str = include_str!("../../../page/page.html");
const STYLE: &str = include_str!("../../../page/page.css");

pub(crate) fn run(args: &Args, task: Task<'_>) -> Ended {
    let Task { input, out, notes, .. } = task;
    let (trace, names) = input.read(notes)?;
    let label = args.label.as_deref().map(|label| names.find_label(&trace, Some(label)));
    let label = label.transpose()?;
    let whole = View::whole(&trace, &names);
    let links = Links::of_view(&whole)?;
    with_causes(&whole, &links, |causes| {
        let messages = Messages::beside(input.path(), |value| names.term(value).is_some())?;
        let title = input.title();
        let data = Data::of(causes, causes.ordered()?, &title, label, &messages);
        let page = page(&title, &serde_json::to_string(&data)?);
        match &args.out {
            Some(file) => keep(file, page.as_bytes())?,
            None => out.write_all(page.as_bytes())?,
        }
        Ok(Status::Yes)
    })
}

/// Fills the frame, in which words between at signs stand for texts, but not those within texts.
fn page(title: &str, data: &str) -> String {
    // Escapes what could end the element: only strings of JSON have these characters.
    let data = data.replace('<', "\\u003c").replace('>', "\\u003e").replace('&', "\\u0026");
    let (nonce, script, title) = (nonce(), script(), escape(title));
    let parts = FRAME.split('@').map(|part| match part {
        "NONCE" => &nonce,
        "STYLE" => STYLE,
        "SCRIPT" => &script,
        "DATA" => &data,
        "TITLE" => &title,
        part => part,
    });
    parts.collect::<Vec<&str>>().concat()
}

/// Makes the word by which the policy lets a script run: nobody who sent a message knew it.
fn nonce() -> String {
    // Draws on the random keys that each state has of its own.
    let number = |_| format!("{:016x}", RandomState::new().build_hasher().finish());
    (0..4).map(number).collect()
}

fn escape(text: &str) -> String {
    let escaped = |c: char| match c {
        'a'..='z' | 'A'..='Z' | '0'..='9' | ' ' | '.' | '_' | '-' => c.to_string(),
        _ => format!("&#{};", u32::from(c)),
    };
    text.chars().map(escaped).collect()
}

const HEAD: &str = "\"use strict\";
// Rows are events, in one order that no event precedes its cause in; lanes are processes. Only what
// is in sight is in the document: the lanes and arrows on a canvas, the rows as elements of a grid,
// so that keys and screen readers reach each of them.
(() => {
";

macro_rules! modules {
    ($($name:literal),* $(,)?) => {
        [$(include_str!(concat!("../../../page/", $name, ".js"))),*]
    };
}

const MODULES: [&str; 12] = modules![
    "elements", "trace", "layout", "choice", "drawing", "marks", "grid", "panel", "search",
    "drawers", "controls", "main",
];

fn script() -> String {
    let bodies: Vec<String> = MODULES.into_iter().map(without_words_of_modules).collect();
    format!("{HEAD}{}}})();\n", bodies.join("\n"))
}

/// Returns a module without its imports, which may take several lines, and without `export`.
fn without_words_of_modules(text: &str) -> String {
    let mut body = String::with_capacity(text.len());
    let mut is_import = false;
    for line in text.lines() {
        is_import |= line.starts_with("import ");
        if !is_import {
            body.push_str(line.strip_prefix("export ").unwrap_or(line));
            body.push('\n');
        }
        is_import &= !line.ends_with(';');
    }
    body
}
