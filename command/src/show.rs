//! `outline`, `events` and `rows`: one file, seen through.

use crate::json::Object;
use crate::options::{Action, Format, Options};
use crate::screen::Screen;
use crate::text::shown;
use crate::verdict::{Checked, Status, Verdict};
use crate::walk::Found;
use stableglow::{EventKind, Events, Reading, Rows};
use std::io;

pub fn show(asked: &Options, screen: &mut Screen) -> io::Result<Status> {
    let checked = Checked::of(Found::File(asked.paths[0].clone()), asked.fuel);
    let name = shown(&checked.name());
    match &checked.verdict {
        Verdict::Refused(_, why) => screen.note(&format!("{name}: refused: {why}")),
        Verdict::Unread(why) => screen.note(&format!("{name}: not read: {why}")),
        Verdict::Read(rows, reading) => {
            let lister = Lister { checked: &checked, json: asked.format == Format::Json };
            let list = match asked.action {
                Action::Rows => lister.rows(rows),
                Action::Outline => lister.outline(reading, asked.depth),
                _ => lister.events(reading, asked.merged),
            };
            screen.write(&list)?;
            if let Some((_, why)) = checked.stop() {
                screen.note(&format!("{name}: stopped: {why}; what follows was not read"));
            }
        }
    }
    Ok(checked.status())
}

struct Lister<'a> {
    checked: &'a Checked,
    json: bool,
}

impl Lister<'_> {
    fn part(&self, start: u32, end: u32) -> String {
        String::from_utf8_lossy(&self.checked.source[start as usize..end as usize]).into_owned()
    }

    /// A row's text in one line: quotes around it, and what a line cannot hold escaped.
    fn quoted(&self, start: u32, end: u32) -> String {
        format!("{:?}", self.part(start, end))
    }

    fn rows(&self, rows: &Rows) -> String {
        let lines = self.checked.lines();
        let line = |row: stableglow::Row| {
            let (spot, start, end) = (lines.spot(row.start as usize), row.start, row.end);
            if self.json {
                let object =
                    Object::new().text("id", &row.id.to_string()).with("start", start).with("end", end);
                let object = object.with("line", spot.line).with("column", spot.column);
                return object.text("text", &self.part(start, end)).end() + "\n";
            }
            let at = format!("{}:{}", spot.line, spot.column);
            format!("{at:<7} {:<14} {start}..{end} {}\n", row.id, self.quoted(start, end))
        };
        rows.iter().map(line).collect()
    }

    fn outline(&self, reading: &Reading, depth: u32) -> String {
        let lines = self.checked.lines();
        let nodes =
            stableglow::outline(&reading.events, 0, depth).expect("the reader's first event opens a node");
        let line = |node: stableglow::Node| {
            let (spot, start, end) = (lines.spot(node.start as usize), node.start, node.end);
            if self.json {
                let object = Object::new().text("kind", &node.kind.to_string());
                let object = object.with("start", start).with("end", end).with("depth", node.depth);
                return object.with("line", spot.line).with("column", spot.column).end() + "\n";
            }
            let indent = "  ".repeat(node.depth as usize - 1);
            format!("{indent}{} {}:{} {start}..{end}\n", node.kind, spot.line, spot.column)
        };
        nodes.into_iter().map(line).collect()
    }

    fn events(&self, reading: &Reading, merged: bool) -> String {
        let joined =
            merged.then(|| stableglow::merge(&reading.events).expect("the reader's events are merged"));
        let events: &Events = joined.as_ref().unwrap_or(&reading.events);
        let told = self.checked.told();
        let line = |event: stableglow::Event| {
            let (start, end) = (event.start, event.end);
            let (word, what, text) = match event.kind {
                EventKind::Begin(kind) => ("begin", kind.to_string(), String::new()),
                EventKind::End(kind) => ("end", kind.to_string(), String::new()),
                EventKind::Token(kind) => ("token", kind.to_string(), self.part(start, end)),
                EventKind::Error(at) => ("error", at.to_string(), told[at as usize].text.clone()),
            };
            if self.json {
                let object = Object::new().text("event", word);
                let object = match event.kind {
                    EventKind::Error(at) => object.with("record", at).text("message", &text),
                    _ => object.text("kind", &what),
                };
                let object = object.with("start", start).with("end", end);
                return object.with("depth", event.depth).end() + "\n";
            }
            let text = match event.kind {
                EventKind::Token(_) => format!(" {text:?}"),
                EventKind::Error(_) => format!(" {}", shown(&text)),
                _ => String::new(),
            };
            format!("{}{word} {what} {start}..{end}{text}\n", "  ".repeat(event.depth as usize))
        };
        events.iter().map(line).collect()
    }
}
