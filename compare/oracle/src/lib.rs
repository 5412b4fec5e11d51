//! The Rust's own parser and merger, built unchanged over stand-ins, asked in document 01's numbers.

mod message;
mod stand_in;

// The layout of the Rust's crate, as far as its four files name it.
include!(concat!(env!("OUT_DIR"), "/modules.rs"));
pub use stand_in::Span;
pub mod ast {
    pub use crate::stand_in::AST;
}
pub mod tokenizer {
    pub use crate::stand_in::{Token, TokenId, Tokenizer};
}

use common::{BEGIN, END, ERROR, Event, Question, Reading, Record, TOKEN, counted};
use common::kinds::id;
use cst::error_merger::ErrorMerger;
use std::collections::HashSet;

/// What the probe saw of one reading.
pub struct Probed {
    pub events: Vec<cst::Event>,
    pub out_of_fuel: bool,
    pub rows: usize,
    pub fuel: usize,
}

/// Reads rows that tile the source. Answers outcomes 0 and 1 alone: the Rust has no limit of depth.
pub fn read(question: &Question) -> Reading {
    told(question).0
}

/// The reading, and the Rust's own message for each of its error records.
pub fn told(question: &Question) -> (Reading, Vec<String>) {
    let probed = parser::Parser::probe(&question.source, &tokens(question), question.fuel as usize);
    let texts = probed.events.iter().filter_map(|event| match event {
        cst::Event::Error { message, .. } => Some(message.clone()),
        _ => None,
    });
    let texts = texts.collect();
    let (raw, mut records) = with_records(probed.events.iter().cloned(), &question.source);
    let (merged, again) = with_records(ErrorMerger::new(probed.events.into_iter()), &question.source);
    assert_eq!(records, again, "merging leaves errors alone");
    count_items(&raw, question, &mut records);
    let reading = Reading {
        raw,
        merged,
        records,
        outcome: u32::from(probed.out_of_fuel),
        rows: probed.rows as u32,
        fuel: probed.fuel as u32,
    };
    (reading, texts)
}

/// A source read with the modes that the parser sets.
pub struct Steered {
    /// The rows that the parser took, each with the mode that cut it.
    pub rows: Vec<(tokens::Row, tokens::Mode)>,
    pub out_of_fuel: bool,
    /// Read to its end without an error.
    pub accepted: bool,
}

pub fn steered(source: &[u8], fuel: u32) -> Steered {
    let log = stand_in::Log::default();
    let probed = parser::Parser::steered(source, log.clone(), fuel as usize);
    let mut rows = log.take();
    // A row that was only looked at is not the parser's yet.
    rows.truncate(probed.rows);
    let failed = probed.events.iter().any(|e| matches!(e, cst::Event::Error { .. }));
    Steered { rows, out_of_fuel: probed.out_of_fuel, accepted: !failed && !probed.out_of_fuel }
}

/// The merged events, with all made ready and nothing read yet: the reading is in taking them out.
pub fn merged(question: &Question) -> impl Iterator<Item = cst::Event> + use<'_> {
    let fuel = question.fuel as usize;
    ErrorMerger::new(parser::Parser::with_rows(&question.source, &tokens(question), fuel))
}

fn tokens(question: &Question) -> Vec<tokenizer::Token> {
    let spans = question.starts.iter().zip(&question.ends).map(|(s, e)| Span(*s..*e));
    question.ids.iter().zip(spans).map(|(id, span)| tokenizer::Token::new(*id, span)).collect()
}

/// The Rust's merger on any list; an error keeps its index as its message.
pub fn merge(events: &[Event]) -> Vec<Event> {
    let given = events.iter().map(|[sort, what, start, end, _]| {
        let span = Span(*start..*end);
        let kind = || stand_in::SyntaxKind::ALL[*what as usize];
        match *sort {
            BEGIN => cst::Event::Begin { kind: kind(), span },
            END => cst::Event::End { kind: kind(), span },
            TOKEN => cst::Event::Token { kind: kind(), span },
            _ => cst::Event::Error { message: what.to_string(), span },
        }
    });
    numbers(ErrorMerger::new(given), |index, _| index.parse().unwrap())
}

/// The Rust does not tell where the bad byte is. This is what the test that it calls says of it: a character
/// begins at `valid_up_to`, and the byte behind the `error_len` bytes that are one so far is bad; without a
/// length it is cut short. A byte that begins none is bad itself.
pub fn bad_byte(text: &[u8]) -> Option<usize> {
    let error = std::str::from_utf8(text).err()?;
    let at = error.valid_up_to();
    let begins = matches!(text[at], 0xC2..=0xF4);
    Some(at + error.error_len().filter(|_| begins).unwrap_or(0))
}

/// Events as numbers, and a record for each message, in the order of their events.
fn with_records(events: impl Iterator<Item = cst::Event>, source: &[u8]) -> (Vec<Event>, Vec<Record>) {
    let mut records = Vec::new();
    let events = numbers(events, |message, span| {
        let (form, names) = message::apart(message, &source[span.range()]);
        let place = if form == 9 { bad_byte(&source[span.range()]) } else { None };
        let place = place.map(|bad| span.0.start + bad as u32);
        records.push(Record { start: span.0.start, end: span.0.end, form, item: 0, names, place });
        records.len() as u32 - 1
    });
    (events, records)
}

/// The Rust tells no item: it is counted by the rows. An item begins with a node of depth 1 whose first row is one of
/// the five words, or with an error of form 10; the errors that follow are its own.
fn count_items(raw: &[Event], question: &Question, records: &mut [Record]) {
    let words = [id::GLOBAL_KW, id::PRIVATE_KW, id::RULE_KW, id::IMPORT_KW, id::INCLUDE_KW];
    let rows = question.ids.iter().zip(&question.starts);
    let begins: HashSet<u32> = rows.filter(|(id, _)| words.contains(id)).map(|(_, start)| *start).collect();
    let mut item = 0;
    for [sort, what, start, _, depth] in raw {
        match *sort {
            BEGIN => item += u32::from(*depth == 1 && begins.contains(start)),
            ERROR => {
                let record = &mut records[*what as usize];
                item += u32::from(record.form == 10);
                record.item = item;
            }
            _ => {}
        }
    }
}

/// The Rust tells no depth: it is counted.
fn numbers(
    events: impl Iterator<Item = cst::Event>,
    mut index: impl FnMut(&str, &Span) -> u32,
) -> Vec<Event> {
    let number = |event| {
        let (sort, what, span) = match event {
            cst::Event::Begin { kind, span } => (BEGIN, kind as u32, span),
            cst::Event::Token { kind, span } => (TOKEN, kind as u32, span),
            cst::Event::End { kind, span } => (END, kind as u32, span),
            cst::Event::Error { message, span } => (ERROR, index(&message, &span), span),
        };
        [sort, what, span.0.start, span.0.end]
    };
    counted(events.map(number))
}
