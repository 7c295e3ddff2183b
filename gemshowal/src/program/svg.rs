//! A chart as a sequence diagram in SVG, for a document.
//!
//! A lane for each process under its name, time downwards by the chart's rows, each next to the
//! name of its event. An arrow goes from each send, a ring, to its receive, a disc; what nobody
//! reported is dashed, a receive that nobody reported says so, and an arrow ends in a bar if the
//! chart has no receive. Prints are diamonds. An event of which it isn't sure what it follows has a
//! question mark. A text that is shortened next to a mark is whole in its tooltip.

use crate::causes::{Cause, Causes, Grade, Link};
use crate::chart::{short, Chart, Row};
use crate::object::kind_word;
use crate::output::keep;
use crate::view::count;
use crate::{words, Failure};
use gemshowal::{Item, Kind, Pid};
use std::collections::HashMap;
use std::path::Path;

/// A drawing with more rows is no picture for a document; the page shows only what is in sight.
const MOST_ROWS: usize = 2_000;

// Distances in pixels. A row is high enough for one line of text, so texts never meet; a lane is as
// wide as the text of most messages. The names come again after a block of rows, about a screen.
const LANE: usize = 170;
const ROW: usize = 22;
const LEFT: usize = 190;
const TOP: usize = 120;
const NAMES: usize = 34;
const ROWS_A_BLOCK: usize = 40;
/// The least number of lanes that the drawing has room for: the heading needs it.
const LEAST_LANES: usize = 4;

// Limits of characters next to a mark, of a name above a lane or next to a row, and of the heading.
const TEXT: usize = 44;
const NAME: usize = 24;
const HEADING: usize = 160;

const STYLE: &str = include_str!("../../page/chart.css");

/// The ends of arrows: of a message that was reported, of one that wasn't, and the bar.
const ENDS: &str = include_str!("../../page/arrows.svg");

/// The words for each mark: of what is unreported, of what is doubtful, and of the bar.
const KEY: &str = include_str!("../../page/key.svg");

pub(crate) fn write(file: &Path, causes: &Causes<'_>, chart: &Chart) -> Result<(), Failure> {
    if chart.rows.len() > MOST_ROWS {
        return Err(Failure::TooManyRows(chart.rows.len(), MOST_ROWS));
    }
    let numbers = chart.rows.iter().map(|row| row.item).zip(0..).collect();
    keep(file, Drawing { causes, chart, numbers }.svg().as_bytes())
}

struct Drawing<'a> {
    causes: &'a Causes<'a>,
    chart: &'a Chart,
    numbers: HashMap<Item, usize>,
}

impl<'a> Drawing<'a> {
    /// Draws the texts and names last, so that no arrow hides them.
    fn svg(&self) -> String {
        let width = LEFT + LANE * (self.chart.lanes.len().max(LEAST_LANES) + 1);
        let height = y(self.chart.rows.len()) + ROW;
        let head = format!(
            "<?xml version=\"1.0\" encoding=\"UTF-8\"?>\n<svg xmlns=\"http://www.w3.org/2000/svg\" \
             width=\"{width}\" height=\"{height}\" viewBox=\"0 0 {width} {height}\">\n\
             <style>\n{STYLE}</style>\n{ENDS}<rect width=\"100%\" height=\"100%\" fill=\"#fff\"/>\n"
        );
        let rows = || self.chart.rows.iter().enumerate();
        let marks = rows().map(|(number, row)| self.tipped(row, self.mark(row, number)));
        let texts = rows().map(|(number, row)| self.tipped(row, self.text(row, number)));
        let blocks = 0..=self.chart.rows.len().saturating_sub(1) / ROWS_A_BLOCK;
        let names = rows().map(|(number, row)| {
            let (x, y, name) = (LEFT - 20, y(number) + 4, short(&self.causes.name(row.item), NAME));
            format!("<text class=\"n\" x=\"{x}\" y=\"{y}\">{}</text>\n", xml(&name))
        });
        let ground = [head, self.heading(), self.key(), self.ground(width, height)].into_iter();
        let marked = ground.chain(marks).chain(texts).chain(blocks.map(|it| self.lane_names(it)));
        marked.chain(names).chain(["</svg>\n".into()]).collect()
    }

    /// Says what is drawn, what the trace lacks, and whether it has no run.
    fn heading(&self) -> String {
        let (rows, lanes) = (self.chart.rows.len() as u64, self.chart.lanes.len() as u64);
        let label = self.causes.names().label(self.chart.label);
        let title = format!("label {label}: {}, {}", count(rows, "event"), count(lanes, "process"));
        let class = if self.causes.never().is_some() { "class=\"w\" " } else { "" };
        let said = short(&words::headline(self.causes), HEADING);
        let losses = match self.causes.names().losses().join("; ") {
            none if none.is_empty() => none,
            losses => {
                let losses = short(&format!("this trace isn't whole: {losses}"), HEADING);
                format!("<text class=\"w\" x=\"12\" y=\"86\">{}</text>\n", xml(&losses))
            }
        };
        format!(
            "<text class=\"h\" x=\"12\" y=\"26\">{}</text>\n\
             <text {class}x=\"12\" y=\"46\">{}</text>\n{losses}",
            xml(&title),
            xml(&said)
        )
    }

    /// Explains the marks of the drawing that aren't plain.
    fn key(&self) -> String {
        let rows = &self.chart.rows;
        let is_open = |row: &Row| row.event.kind == Kind::Send && self.receive(row).is_none();
        let are_used = [
            rows.iter().any(|row| !self.is_reported(row)),
            rows.iter().any(|row| self.is_doubtful(row)),
            rows.iter().any(is_open),
        ];
        let used = KEY.lines().zip(are_used).filter(|(_, is_used)| *is_used);
        used.map(|(line, _)| format!("{line}\n")).collect()
    }

    /// Shades every other five rows, so that the eye keeps the height across many lanes.
    fn ground(&self, width: usize, height: usize) -> String {
        let shades = (5..self.chart.rows.len()).step_by(10).map(|first| {
            let (y, height) = (y(first) - ROW / 2, 5 * ROW);
            format!("<rect class=\"z\" x=\"0\" y=\"{y}\" width=\"{width}\" height=\"{height}\"/>\n")
        });
        let lines = self.chart.lanes.iter().enumerate().map(|(lane, &pid)| {
            let is_unlisted = self.causes.is_unlisted(pid);
            let dashed = if is_unlisted { " stroke-dasharray=\"4 4\"" } else { "" };
            let (x, top, bottom) = (x(lane), TOP - ROW, height - ROW);
            format!("<path class=\"l\"{dashed} d=\"M{x} {top}V{bottom}\"/>\n")
        });
        shades.chain(lines).collect()
    }

    fn lane_names(&self, block: usize) -> String {
        let top = y(block * ROWS_A_BLOCK) - ROW / 2 - NAMES + 4;
        let name = |(lane, &pid): (usize, &Pid)| {
            let name = self.causes.process(pid);
            let (pid, about) = (gemshowal::Text(pid), self.causes.names().about(pid));
            let about = xml(&format!("{name}\n{pid}\n{}", about.unwrap_or_default()));
            let (x, y, left, width) = (x(lane), top + 16, x(lane) - LANE / 2 + 6, LANE - 12);
            let name = xml(&short(&name, NAME));
            format!(
                "<g><title>{about}</title>\
                 <rect class=\"b\" x=\"{left}\" y=\"{top}\" width=\"{width}\" height=\"24\" rx=\"4\"/>\
                 <text x=\"{x}\" y=\"{y}\" text-anchor=\"middle\">{name}</text></g>\n"
            )
        };
        self.chart.lanes.iter().enumerate().map(name).collect()
    }

    /// Puts the marks of a row below the tooltip of the row.
    fn tipped(&self, row: &Row, marks: String) -> String {
        let (kind, serial) = (kind_word(row.event.kind), gemshowal::Text(row.event.serial));
        let follows = words::follows(self.causes, row.item, "it", row.link);
        let whole = match self.causes.message(row.item) {
            Some(value) => self.causes.names().value(value).into_owned(),
            None => words::message(self.causes, row.item),
        };
        let (name, premises) = (self.causes.name(row.item), premises(row.link));
        let tip = format!("{name}: {kind} {serial}, {follows}\n{whole}{premises}");
        format!("<g><title>{}</title>{marks}</g>\n", xml(&tip))
    }

    fn is_reported(&self, row: &Row) -> bool {
        self.causes.reported(row.item).is_some()
    }

    /// Returns whether what an event follows isn't sure. An unreported receive follows its send.
    fn is_doubtful(&self, row: &Row) -> bool {
        let may_follow = self.is_reported(row) || row.event.kind == Kind::Send;
        let causes = matches!(row.link.cause, Cause::Either(..) | Cause::Moved(_) | Cause::Unknown);
        may_follow && (row.link.grade == Grade::Perhaps || causes)
    }

    fn receive(&self, row: &Row) -> Option<(usize, &'a Row)> {
        let number = *self.numbers.get(&self.causes.other_end(row.item)?)?;
        Some((number, self.chart.rows.get(number)?))
    }

    fn mark(&self, row: &Row, number: usize) -> String {
        let (x, y) = (x(row.lane), y(number));
        let doubt = match self.is_doubtful(row) {
            true => format!("<text class=\"q\" x=\"{}\" y=\"{}\">?</text>", x - 14, y + 4),
            false => String::new(),
        };
        let (circle, arrow) = match (row.event.kind, self.is_reported(row)) {
            (Kind::Print, _) => {
                return format!("{doubt}<path class=\"p\" d=\"M{x} {}l5 5l-5 5l-5 -5z\"/>", y - 5)
            }
            (Kind::Receive, true) => ("s r", String::new()),
            (Kind::Receive, false) => ("u", String::new()),
            (Kind::Send, true) => ("o", self.arrow(row, number)),
            (Kind::Send, false) => ("u", self.arrow(row, number)),
        };
        format!("{doubt}{arrow}<circle class=\"{circle}\" cx=\"{x}\" cy=\"{y}\" r=\"3.5\"/>")
    }

    fn arrow(&self, row: &Row, number: usize) -> String {
        let receive = self.receive(row);
        let are_reported =
            self.is_reported(row) && receive.is_none_or(|(_, receive)| self.is_reported(receive));
        let class = if are_reported { "s" } else { "d" };
        let (end, lane, at) = match receive {
            Some((at, receive)) => (class, receive.lane, at),
            None => ("x", row.other.unwrap_or(row.lane), number),
        };
        let from = (x(row.lane), y(number));
        let path = match lane == row.lane {
            true => bow(from, y(at.max(number + 1))),
            false => format!("M{} {}L{} {}", from.0, from.1, x(lane), y(at)),
        };
        format!("<g class=\"{class}\"><path d=\"{path}\" marker-end=\"url(#{end})\"/></g>")
    }

    /// Returns the text next to a mark: for a print its message, for a send the message too, which
    /// begins at the sender and runs towards the receiver. For a receive that nobody reported it is
    /// on the side from which no arrow comes.
    fn text(&self, row: &Row, number: usize) -> String {
        let message = words::message(self.causes, row.item);
        let (is_right, text, y) = match row.event.kind {
            Kind::Receive if self.is_reported(row) => return String::new(),
            Kind::Receive => {
                let is_right = row.other.is_some_and(|other| other < row.lane);
                (is_right, "receive not reported".into(), y(number) + 4)
            }
            Kind::Print => (true, message, y(number) + 4),
            Kind::Send => (row.other.is_none_or(|other| other >= row.lane), message, y(number) - 3),
        };
        let x = x(row.lane);
        let (x, anchor) = if is_right { (x + 10, "start") } else { (x - 10, "end") };
        let text = xml(&short(&text, TEXT));
        format!("<text class=\"t\" x=\"{x}\" y=\"{y}\" text-anchor=\"{anchor}\">{text}</text>")
    }
}

/// Returns the lines that say on what a link rests, if it rests on something.
fn premises(link: Link) -> String {
    match link.grade {
        Grade::Certain => String::new(),
        _ => words::rests_on([link].into_iter()).iter().map(|line| format!("\n{line}")).collect(),
    }
}

/// Draws a message of a process to itself: a bow to the right.
fn bow((x, y): (usize, usize), bottom: usize) -> String {
    let (right, end) = (x + 50, x + 4);
    format!("M{x} {y}C{right} {y} {right} {bottom} {end} {bottom}")
}

fn x(lane: usize) -> usize {
    LEFT + LANE * lane + LANE / 2
}

fn y(row: usize) -> usize {
    TOP + NAMES / 2 + row * ROW + row / ROWS_A_BLOCK * NAMES
}

/// Returns a text as XML takes it. Control characters were escaped when the names were read.
fn xml(text: &str) -> String {
    let text = text.replace('&', "&amp;").replace('<', "&lt;").replace('>', "&gt;");
    text.replace('"', "&quot;").replace(['\u{FFFE}', '\u{FFFF}'], "\u{FFFD}")
}
