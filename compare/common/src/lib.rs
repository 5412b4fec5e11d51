//! What every side is asked and what it answers, in the numbers of document 01 and docs/KINDS.md.

pub mod input;
pub mod listing;

/// Ids, kinds and names, written by the build from docs/KINDS.md.
pub mod kinds {
    include!(concat!(env!("OUT_DIR"), "/kinds.rs"));

    /// Trivia may stand between any two rows.
    pub fn is_trivia(id: u32) -> bool {
        matches!(id, id::WHITESPACE | id::NEWLINE | id::COMMENT)
    }
}

use kinds::kind;

/// Sort, kind or record index, start, end, and the count of nodes open around it.
pub type Event = [u32; EVENT];

pub const EVENT: usize = 5;

pub const BEGIN: u32 = 1;
pub const TOKEN: u32 = 2;
pub const END: u32 = 3;
pub const ERROR: u32 = 4;

/// What a settings edition gives besides fuel: nodes that may be open besides SOURCE_FILE, bytes of found text that are still shown, and
/// whether entrypoint is a term.
#[derive(Clone, Copy, Debug, PartialEq, Eq, Hash)]
pub struct Limits {
    pub depth: usize,
    pub quote: usize,
    pub entrypoint: bool,
}

/// Edition 1's.
pub const TODAY: Limits = Limits { depth: 1_024, quote: 15, entrypoint: true };

/// One call of the reader. The lists may differ in length or fail to tile: that is for the refusals to say.
#[derive(Clone, Debug, PartialEq, Eq, Hash)]
pub struct Question {
    pub source: Vec<u8>,
    pub ids: Vec<u32>,
    pub starts: Vec<u32>,
    pub ends: Vec<u32>,
    pub fuel: u32,
    pub limits: Limits,
    /// Words of scratch, then numbers of room for events and for error records.
    pub scratch: usize,
    pub event_room: usize,
    pub error_room: usize,
}

impl Question {
    /// A question whose rows tile the source, with room for any reading that a comparison makes.
    pub fn new(rows: &[(u32, Vec<u8>)], fuel: u32) -> Self {
        let (mut source, mut ids, mut starts, mut ends) = (vec![], vec![], vec![], vec![]);
        for (id, text) in rows {
            ids.push(*id);
            starts.push(source.len() as u32);
            source.extend_from_slice(text);
            ends.push(source.len() as u32);
        }
        // No slack, so that a memory checker sees a read past an end.
        source.shrink_to_fit();
        [&mut ids, &mut starts, &mut ends].into_iter().for_each(Vec::shrink_to_fit);
        let scratch = scratch_words(ids.len());
        let event_room = EVENT * (64 * (ids.len() + 1)).max(16_384);
        let error_room = (32 * (ids.len() + 1)).max(4_096);
        Self { source, ids, starts, ends, fuel, limits: TODAY, scratch, event_room, error_room }
    }

    /// The rows with their texts, if the lists are equally long and lie in the source.
    pub fn rows(&self) -> Option<Vec<(u32, Vec<u8>)>> {
        let places = self.starts.iter().zip(&self.ends);
        let rows = self.ids.iter().zip(places);
        let alike = self.ids.len() == self.starts.len() && self.ids.len() == self.ends.len();
        let read = |(id, (s, e)): (&u32, (&u32, &u32))| {
            Some((*id, self.source.get(*s as usize..*e as usize)?.to_vec()))
        };
        alike.then(|| rows.map(read).collect())?
    }
}

/// The words of scratch that refusal 6 asks for, as document 01 spells them.
#[allow(clippy::manual_div_ceil)]
pub fn scratch_words(rows: usize) -> usize {
    (2 * (rows + 1) + 63) / 64
}

/// What the reader gives back, and what it leaves in the lent buffers, which held `LENT` everywhere.
#[derive(Clone, Debug, PartialEq, Eq)]
pub struct Reply {
    pub refusal: u32,
    /// Outcome, rows covered, counts of events and of error records, fuel left.
    pub answer: [u32; 5],
    pub scratch: Vec<u64>,
    pub events: Vec<u32>,
    pub errors: Vec<u32>,
}

/// What the merger gives back: refusal, count of events, and its room, which held `LENT` everywhere.
#[derive(Clone, Debug, PartialEq, Eq)]
pub struct Merged {
    pub refusal: u32,
    pub count: u32,
    pub room: Vec<u32>,
}

/// What the cutter gives back: refusal, count of rows, and the lists of ids, starts and ends, which held
/// `LENT` everywhere.
#[derive(Clone, Debug, PartialEq, Eq)]
pub struct Cut {
    pub refusal: u32,
    pub count: u32,
    pub lists: [Vec<u32>; 3],
}

/// What writing a message gives back: refusal, length of the text, and its room, which held `LENT_BYTE` everywhere.
#[derive(Clone, Debug, PartialEq, Eq)]
pub struct Told {
    pub refusal: u32,
    pub length: u32,
    pub room: Vec<u8>,
}

/// The content of lent cells before a call: neither zero nor anything that a reader writes.
pub const LENT: u32 = 0xA5A5_A5A5;
pub const LENT_WORD: u64 = 0xA5A5_A5A5_A5A5_A5A5;
pub const LENT_BYTE: u8 = 0xA5;

/// Anything that reads as document 01 says: the model, and the library through its C face.
pub trait Side {
    fn read(&self, question: &Question) -> Reply;
    fn merge(&self, events: &[u32], room: usize) -> Merged;
    /// The message of the error record that the numbers begin with.
    fn message(&self, source: &[u8], numbers: &[u32], room: usize) -> Told;
}

/// A reading without its buffers: all that can be asked of the Rust.
#[derive(Clone, Debug, PartialEq, Eq)]
pub struct Reading {
    pub raw: Vec<Event>,
    pub merged: Vec<Event>,
    pub records: Vec<Record>,
    pub outcome: u32,
    pub rows: u32,
    pub fuel: u32,
}

#[derive(Clone, Debug, PartialEq, Eq)]
pub struct Record {
    pub start: u32,
    pub end: u32,
    pub form: u32,
    /// The number of its item, from 1.
    pub item: u32,
    pub names: Vec<u32>,
    /// Where in the source the bad byte is; form 9 alone has it.
    pub place: Option<u32>,
}

impl Record {
    /// The record as it stands in its list.
    pub fn numbers(&self) -> Vec<u32> {
        let head = [self.start, self.end, self.form, self.item, self.names.len() as u32];
        [&head[..], &self.names, self.place.as_slice()].concat()
    }
}

pub fn events_of(numbers: &[u32]) -> Vec<Event> {
    numbers.chunks_exact(EVENT).map(|e| e.try_into().unwrap()).collect()
}

/// Events with their depths, counted from the start of the list. An end with none open is at depth 0.
pub fn counted(events: impl IntoIterator<Item = [u32; EVENT - 1]>) -> Vec<Event> {
    let mut open = 0u32;
    let mut deep = |[sort, what, start, end]: [u32; EVENT - 1]| {
        open = open.saturating_sub(u32::from(sort == END));
        let event = [sort, what, start, end, open];
        open += u32::from(sort == BEGIN);
        event
    };
    events.into_iter().map(&mut deep).collect()
}

/// Takes `count` error records out of the numbers that hold them.
pub fn records_of(numbers: &[u32], count: usize) -> Vec<Record> {
    let mut rest = numbers;
    let mut records = Vec::new();
    for _ in 0..count {
        let (head, tail) = rest.split_at(5);
        let (names, behind) = tail.split_at(head[4] as usize);
        let (place, after) = behind.split_at(usize::from(head[2] == 9));
        records.push(Record {
            start: head[0],
            end: head[1],
            form: head[2],
            item: head[3],
            names: names.to_vec(),
            place: place.first().copied(),
        });
        rest = after;
    }
    records
}

/// Asks a side for a reading and its merged list. A refusal is handed back as its number.
pub fn reading_of(side: &dyn Side, question: &Question) -> Result<Reading, u32> {
    let reply = side.read(question);
    if reply.refusal != 0 {
        return Err(reply.refusal);
    }
    let [outcome, rows, events, errors, fuel] = reply.answer;
    let raw = &reply.events[..EVENT * events as usize];
    let merged = side.merge(raw, raw.len());
    assert_eq!(merged.refusal, 0, "the merger refuses what the reader wrote");
    Ok(Reading {
        raw: events_of(raw),
        merged: events_of(&merged.room[..EVENT * merged.count as usize]),
        records: records_of(&reply.errors, errors as usize),
        outcome,
        rows,
        fuel,
    })
}

/// Decision 1: the Rust has no empty ERROR nodes. Each ERROR begin directly followed by its end is
/// taken out, inside out, and nothing else.
pub fn strip_empty_errors(events: &[Event]) -> Vec<Event> {
    let mut kept: Vec<Event> = Vec::new();
    for event in events {
        let closes = event[0] == END && event[1] == kind::ERROR;
        match kept.last() {
            Some(last) if closes && last[0] == BEGIN && last[1] == kind::ERROR => {
                kept.pop();
            }
            _ => kept.push(*event),
        }
    }
    kept
}
