//! Puts one question to every side and compares.

use crate::messages;
use common::kinds::id;
use common::listing::listing;
use common::{events_of, reading_of, strip_empty_errors, Limits, Question, Reading, Reply, Side, EVENT, TODAY};
use model::{utf8, Model};
use std::panic::{catch_unwind, AssertUnwindSafe};

/// What is worth counting about a case on which all sides agree.
pub struct Seen {
    pub refusal: u32,
    /// Whether the Rust was asked.
    pub with_rust: bool,
    pub outcome: u32,
    pub forms: Vec<u32>,
    /// Whether a row has a text that only one side takes for UTF-8, or another bad byte.
    pub outside_utf8: bool,
    pub accepted: bool,
    pub has_empty_errors: bool,
}

/// Every side, or the first difference in words.
pub fn judge(question: &Question, library: Option<&dyn Side>) -> Result<Seen, String> {
    if let Some(library) = library {
        same_replies(question, library)?;
    }
    let ours = match reading_of(&Model, question) {
        Err(refusal) => return Ok(refused(refusal)),
        Ok(reading) => reading,
    };
    let stripped = stripped(&ours);
    let with_rust = rust_has(question);
    if with_rust {
        same_as_rust(question, &stripped, library)?;
    }
    let accepted = model::peg::accepts(&question.ids, question.limits.entrypoint);
    if ours.outcome == 0 && accepted != ours.records.is_empty() {
        return Err(format!("the PEG accepts: {accepted}; error records: {}", ours.records.len()));
    }
    Ok(Seen {
        refusal: 0,
        with_rust,
        outcome: ours.outcome,
        forms: ours.records.iter().map(|r| r.form).collect(),
        outside_utf8: !same_utf8(question),
        accepted,
        has_empty_errors: stripped.raw.len() != ours.raw.len(),
    })
}

fn refused(refusal: u32) -> Seen {
    Seen { refusal, with_rust: false, outcome: 0, forms: vec![], outside_utf8: false, accepted: false, has_empty_errors: false }
}

/// The Rust shows found text of 15 bytes and no more, and has entrypoint: other editions are the model's alone, those without entrypoint on
/// sources that have such a row.
fn rust_has(question: &Question) -> bool {
    let Limits { quote, entrypoint, .. } = question.limits;
    quote == TODAY.quote && (entrypoint || !question.ids.contains(&id::ENTRYPOINT_KW))
}

/// The Rust is never too deep. But too deep acts as out of fuel does, so with one begin step less than
/// ours took it must stop at the same place.
fn same_as_rust(question: &Question, ours: &Reading, library: Option<&dyn Side>) -> Result<(), String> {
    let mut asked = question.clone();
    let mut wanted = ours.clone();
    if ours.outcome == 2 {
        asked.fuel = question.fuel - ours.fuel - 1;
        (wanted.outcome, wanted.fuel) = (1, 0);
    }
    let (rust, texts) =
        catch_unwind(AssertUnwindSafe(|| oracle::told(&asked))).map_err(|_| "the Rust panics".to_string())?;
    same_readings(&wanted, &rust)?;
    messages::same_texts(&question.source, &ours.records, &texts, library)
}

/// Document 01's domain leaves out rows that the Rust and module 2 judge differently. With the Standard's
/// table there are none: every case is put to the Rust, and a run that finds such a row fails.
fn same_utf8(question: &Question) -> bool {
    let same = |text: &[u8]| utf8::bad_byte(text) == oracle::bad_byte(text);
    question.rows().unwrap().iter().all(|(_, text)| same(text))
}

/// The reading without empty ERROR nodes, as the Rust writes it.
pub fn stripped(reading: &Reading) -> Reading {
    let raw = strip_empty_errors(&reading.raw);
    let merged = strip_empty_errors(&reading.merged);
    Reading { raw, merged, ..reading.clone() }
}

fn same_readings(ours: &Reading, rust: &Reading) -> Result<(), String> {
    if ours == rust {
        return Ok(());
    }
    same_lines("raw", &listing(ours, &ours.raw), &listing(rust, &rust.raw))?;
    same_lines("merged", &listing(ours, &ours.merged), &listing(rust, &rust.merged))?;
    Err("records differ that no event shows".to_string())
}

/// Names the first line in which two listings differ.
pub fn same_lines(what: &str, ours: &str, theirs: &str) -> Result<(), String> {
    if ours == theirs {
        return Ok(());
    }
    let first = ours.lines().zip(theirs.lines()).position(|(a, b)| a != b);
    let at = first.unwrap_or_else(|| ours.lines().count().min(theirs.lines().count()));
    let line = |text: &str| text.lines().nth(at).unwrap_or("(end)").to_string();
    Err(format!("{what}, line {}: ours {:?}, theirs {:?}", at + 1, line(ours), line(theirs)))
}

/// The library must do in every cell as the model does, and so must its merger on what was read.
fn same_replies(question: &Question, library: &dyn Side) -> Result<(), String> {
    let (ours, theirs) = (Model.read(question), library.read(question));
    if ours != theirs {
        if ours.refusal == 0
            && theirs.refusal == 0
            && theirs.answer[2] as usize * EVENT <= theirs.events.len()
        {
            same_events(&ours, &theirs)?;
        }
        let told = |r: &Reply| format!("refusal {} answer {:?}", r.refusal, r.answer);
        let same =
            (ours.scratch == theirs.scratch, ours.events == theirs.events, ours.errors == theirs.errors);
        return Err(format!(
            "library: model {}, library {}; scratch, events, errors the same: {same:?}",
            told(&ours),
            told(&theirs)
        ));
    }
    let events = &ours.events[..EVENT * ours.answer[2] as usize];
    same_merges(events, events.len(), library)?;
    same_merges(events, events.len().saturating_sub(EVENT), library)
}

fn same_events(ours: &Reply, theirs: &Reply) -> Result<(), String> {
    let lines = |reply: &Reply| {
        let events = events_of(&reply.events[..EVENT * reply.answer[2] as usize]);
        events.iter().map(|e| format!("{e:?}\n")).collect::<String>()
    };
    same_lines("library, events", &lines(ours), &lines(theirs))
}

pub fn same_merges(events: &[u32], room: usize, library: &dyn Side) -> Result<(), String> {
    let (ours, theirs) = (Model.merge(events, room), library.merge(events, room));
    if ours == theirs {
        return Ok(());
    }
    let told = |m: &common::Merged| format!("refusal {} count {}", m.refusal, m.count);
    Err(format!("merger, room {room}: model {}, library {}", told(&ours), told(&theirs)))
}
