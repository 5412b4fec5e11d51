//! Document 01 as it reads, in plain Rust: the judge where the Rust has no answer, as of depth, refusals,
//! rooms and empty ERROR nodes. It shares nothing with the proved reader but the page of numbers.

// One production's steps stand under each other, whatever their length.
#[rustfmt::skip]
pub mod grammar;
mod merger;
mod message;
pub mod peg;
pub mod program;
mod reader;
pub mod utf8;

use common::kinds::IDS;
use common::{
    counted, scratch_words, Merged, Question, Record, Reply, Side, Told, LENT, LENT_BYTE, LENT_WORD,
};

pub struct Model;

impl Side for Model {
    fn read(&self, question: &Question) -> Reply {
        let refusal = refusal(question);
        if refusal != 0 {
            return Reply {
                refusal,
                answer: [0; 5],
                scratch: vec![LENT_WORD; question.scratch],
                events: vec![LENT; question.event_room],
                errors: vec![LENT; question.error_room],
            };
        }
        let mut reader = reader::Reader::new(question);
        reader.file();
        let mut reply = Reply {
            refusal: reader.full,
            answer: [0; 5],
            scratch: vec![0; question.scratch],
            events: vec![0; question.event_room],
            errors: vec![0; question.error_room],
        };
        if reader.full == 0 {
            let counts = (reader.events.len() as u32, reader.records.len() as u32);
            reply.answer = [reader.outcome(), reader.at as u32, counts.0, counts.1, reader.fuel];
            let events = counted(reader.events).concat();
            reply.events[..events.len()].copy_from_slice(&events);
            let errors: Vec<u32> = reader.records.iter().flat_map(Record::numbers).collect();
            reply.errors[..errors.len()].copy_from_slice(&errors);
        }
        reply
    }

    fn merge(&self, events: &[u32], room: usize) -> Merged {
        merger::merge(events, room)
    }

    fn message(&self, source: &[u8], numbers: &[u32], room: usize) -> Told {
        let told = |refusal, length| Told { refusal, length, room: vec![LENT_BYTE; room] };
        let Some(text) = message::text(source, numbers) else { return told(11, 0) };
        if text.len() > room {
            return told(12, 0);
        }
        let mut room = vec![0; room];
        room[..text.len()].copy_from_slice(&text);
        Told { refusal: 0, length: text.len() as u32, room }
    }
}

/// Refusals 1 to 6, in the desk's order, 5 not among them since request (ii); 7 and 8 are found by reading.
fn refusal(q: &Question) -> u32 {
    let lengths = [q.ids.len(), q.starts.len(), q.ends.len()];
    if q.source.len() > 1_048_576 || lengths.iter().any(|l| *l > 65_536) {
        1
    } else if lengths.iter().any(|l| *l != lengths[0]) {
        2
    } else if q.ids.iter().any(|i| *i as usize >= IDS.len()) {
        3
    } else if !tiles(q) {
        4
    } else if q.scratch < scratch_words(q.ids.len()) {
        6
    } else {
        0
    }
}

fn tiles(q: &Question) -> bool {
    let mut place = 0;
    for (start, end) in q.starts.iter().zip(&q.ends) {
        if *start != place || end <= start {
            return false;
        }
        place = *end;
    }
    place as usize == q.source.len()
}
