//! `check` and `names`: files, one after the other.

use crate::json::{list, Object};
use crate::lines::{Lines, Spot};
use crate::options::{Format, Options};
use crate::sarif::Log;
use crate::screen::Screen;
use crate::text::{self, shown, Paint, Tally, RED};
use crate::verdict::{Checked, Status, Verdict};
use crate::walk;
use std::io;

/// Reads each file and hands it on; gives the worst status.
fn each(
    asked: &Options,
    screen: &mut Screen,
    mut then: impl FnMut(&mut Screen, Checked) -> io::Result<()>,
) -> io::Result<Status> {
    let found = walk::files(&asked.paths);
    let (files, mut worst) = (found.len(), Status::Accepted);
    for (i, one) in found.into_iter().enumerate() {
        screen.progress.now(i + 1, files, &one.path().to_string_lossy());
        let checked = Checked::of(one, asked.fuel);
        worst = worst.max(checked.status());
        then(screen, checked)?;
    }
    Ok(worst)
}

pub fn check(asked: &Options, screen: &mut Screen) -> io::Result<Status> {
    let paint = Paint::new(asked.color);
    let (mut tally, mut log) = (Tally::default(), Log::default());
    let worst = each(asked, screen, |screen, checked| {
        let status = checked.status();
        tally.add(status);
        let silent = asked.quiet && status == Status::Accepted;
        match asked.format {
            Format::Sarif => log.add(&checked),
            _ if silent => (),
            Format::Text => screen.write(&text::file(&checked, paint))?,
            Format::Json => screen.write(&(file(&checked) + "\n"))?,
        }
        Ok(())
    })?;
    let last = match asked.format {
        Format::Text => tally.line(),
        Format::Json => Object::new().with("summary", tally.object()).end() + "\n",
        Format::Sarif => log.end(&tally, worst),
    };
    screen.write(&last)?;
    Ok(worst)
}

/// What every object of a file begins with.
fn head(checked: &Checked) -> Object {
    let object = Object::new().text("path", &checked.name()).text("status", checked.status().key());
    match &checked.verdict {
        Verdict::Refused(number, why) => object.with("refusal", number).text("reason", why),
        Verdict::Unread(why) => object.text("reason", why),
        Verdict::Read(..) => match checked.stop() {
            Some((place, why)) => {
                let at = spot(Object::new().with("start", place), checked.lines().spot(place));
                object.text("reason", why).with("stopped", at.end())
            }
            None => object,
        },
    }
}

fn spot(object: Object, spot: Spot) -> Object {
    object.with("line", spot.line).with("column", spot.column)
}

fn file(checked: &Checked) -> String {
    let lines = checked.lines();
    let error = |told: crate::verdict::Told| {
        let object = Object::new().with("form", told.form.number()).with("item", told.item).text("message", &told.text);
        let object = spot(object, lines.spot(told.start));
        object.with("start", told.start).with("end", told.end).end()
    };
    head(checked).with("errors", list(checked.told().into_iter().map(error))).end()
}

pub fn names(asked: &Options, screen: &mut Screen) -> io::Result<Status> {
    let paint = Paint::new(asked.color);
    each(asked, screen, |screen, checked| {
        match asked.format {
            Format::Json => return screen.write(&(rules(&checked) + "\n")),
            _ => screen.write(&rule_lines(&checked, paint))?,
        }
        note(&checked, screen);
        Ok(())
    })
}

/// Why the list may be short, or a rule damaged: beside the list, so that the list stays one.
fn note(checked: &Checked, screen: &mut Screen) {
    let name = shown(&checked.name());
    match &checked.verdict {
        Verdict::Refused(_, why) => screen.note(&format!("{name}: refused: {why}")),
        Verdict::Unread(why) => screen.note(&format!("{name}: not read: {why}")),
        Verdict::Read(_, reading) => {
            if let Some((_, why)) = checked.stop() {
                screen.note(&format!("{name}: stopped: {why}; rules may be missing"));
            }
            match reading.errors.len() {
                0 => (),
                1 => screen.note(&format!("{name}: 1 error; `stableglow check` tells it")),
                n => screen.note(&format!("{name}: {n} errors; `stableglow check` tells them")),
            }
        }
    }
}

/// A rule's name, where it is, and the rule.
fn listed(checked: &Checked) -> Vec<(String, Spot, stableglow::Rule)> {
    let Verdict::Read(_, reading) = &checked.verdict else { return Vec::new() };
    let lines = Lines::new(&checked.source);
    let rules = stableglow::rules(&reading.events).expect("the reader's events are never refused");
    let one = |rule: stableglow::Rule| {
        let (start, end) = (rule.name_start as usize, rule.name_end as usize);
        (String::from_utf8_lossy(&checked.source[start..end]).into_owned(), lines.spot(start), rule)
    };
    rules.into_iter().map(one).collect()
}

fn rule_lines(checked: &Checked, paint: Paint) -> String {
    let path = shown(&checked.name());
    let line = |(name, spot, rule): (String, Spot, stableglow::Rule)| {
        let damaged = if rule.damaged { format!(", {}", paint.paint(RED, "damaged")) } else { String::new() };
        format!(
            "{path}:{}:{}: {} ({} meta, {}, {}{damaged})\n",
            spot.line,
            spot.column,
            shown(&name),
            rule.meta,
            counted(rule.patterns, "pattern"),
            counted(rule.tags, "tag")
        )
    };
    listed(checked).into_iter().map(line).collect()
}

fn counted(count: u32, word: &str) -> String {
    let s = if count == 1 { "" } else { "s" };
    format!("{count} {word}{s}")
}

fn rules(checked: &Checked) -> String {
    let rule = |(name, at, rule): (String, Spot, stableglow::Rule)| {
        spot(Object::new().text("name", &name), at)
            .with("start", rule.start)
            .with("end", rule.end)
            .with("meta", rule.meta)
            .with("patterns", rule.patterns)
            .with("tags", rule.tags)
            .with("damaged", rule.damaged)
            .end()
    };
    head(checked).with("rules", list(listed(checked).into_iter().map(rule))).end()
}
