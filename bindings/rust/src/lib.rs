//! Stableglow reads YARA rule files, and every function of it is proved; this crate is the way to it from Rust.
//! It adds no judging of its own: buffers are owned here and grow where the library says that a room is too small.
//!
//! ```
//! use stableglow::{check, message, rules, Options};
//!
//! let source = b"@ rule a{condition:true}";
//! let reading = check(source, &Options::default())?;
//! assert!(!reading.accepted());
//! assert_eq!(message(source, &reading.errors[0])?, "expecting import statement or rule definition");
//! // The rule behind the junk is read all the same.
//! let rule = rules(&reading.events)?[0];
//! assert_eq!(&source[rule.name_start as usize..rule.name_end as usize], b"a");
//! assert!(!rule.damaged);
//! # Ok::<(), stableglow::Refusal>(())
//! ```
//!
//! Call it on a thread with [`STACK`] bytes of stack: a reading opens up to 1,024 nodes, one call each.

#![warn(missing_docs)]

mod errors;
mod events;
mod numbers;
#[allow(missing_docs)] // each name is a word of the header
pub mod raw;
mod refusal;

pub use errors::{message, ErrorRecord, Form};
pub use events::{merge, outline, rules, Event, EventKind, Events, Node, Rule};
pub use numbers::{Id, Kind, Name};
pub use refusal::Refusal;

/// Stack that is enough for any reading: the deepest ones that were tried take less than half of it.
pub const STACK: usize = 4 << 20;

/// The rows of a source: cut by [`cut`], or by another tokenizer.
#[derive(Clone, Debug, Default, PartialEq, Eq)]
pub struct Rows {
    /// What each row is.
    pub ids: Vec<u32>,
    /// Where it starts in the source, in bytes from 0.
    pub starts: Vec<u32>,
    /// Where it ends.
    pub ends: Vec<u32>,
}

/// One row.
#[derive(Clone, Copy, Debug, PartialEq, Eq)]
pub struct Row {
    /// What it is.
    pub id: Id,
    /// Where it starts in the source.
    pub start: u32,
    /// Where it ends.
    pub end: u32,
}

impl Rows {
    /// How many rows.
    pub fn len(&self) -> usize {
        self.ids.len()
    }

    /// Whether there is none.
    pub fn is_empty(&self) -> bool {
        self.ids.is_empty()
    }

    /// The rows in their order.
    pub fn iter(&self) -> impl Iterator<Item = Row> + '_ {
        let places = self.starts.iter().zip(&self.ends);
        self.ids.iter().zip(places).map(|(&id, (&start, &end))| Row { id: Id(id), start, end })
    }
}

/// How to read.
#[derive(Clone, Debug, PartialEq, Eq)]
pub struct Options {
    /// Each node that is begun costs one, also in branches that are taken back. Edition 1's; a later edition has its own.
    pub fuel: u32,
    /// The text of the settings: a line for each edition from 2 on (README). Edition 1 needs none.
    pub settings: Vec<u8>,
    /// Which edition the reading goes by.
    pub edition: u32,
}

impl Options {
    /// Edition 1 with this fuel.
    pub fn with_fuel(fuel: u32) -> Self {
        Self { fuel, settings: Vec::new(), edition: 1 }
    }
}

impl Default for Options {
    fn default() -> Self {
        Self::with_fuel(1_000_000)
    }
}

/// How a reading ended.
#[derive(Clone, Copy, Debug, PartialEq, Eq, Hash)]
pub enum Outcome {
    /// The file was read to its end.
    Done,
    /// The fuel ran out, and the rest was not read.
    OutOfFuel,
    /// More nodes were to be open than the edition allows, 1,024 in edition 1, and the rest was not read.
    TooDeep,
}

/// What a reading gives.
#[derive(Clone, Debug, PartialEq, Eq)]
pub struct Reading {
    /// How it ended.
    pub outcome: Outcome,
    /// How many rows it covered.
    pub rows: u32,
    /// The fuel that is left.
    pub fuel: u32,
    /// The events, not merged.
    pub events: Events,
    /// What is wrong with the file, as far as it was read.
    pub errors: Vec<ErrorRecord>,
}

impl Reading {
    /// Whether the file is accepted: it was read to its end, and nothing is wrong with it.
    pub fn accepted(&self) -> bool {
        self.outcome == Outcome::Done && self.errors.is_empty()
    }
}

/// Cuts rule text into rows that tile it.
pub fn cut(source: &[u8]) -> Result<Rows, Refusal> {
    // A row a byte is the most there can be, so the first room suffices.
    let mut room = source.len().min(raw::MOST_BYTES);
    loop {
        let mut lists = [(); 3].map(|()| vec![0; room]);
        let mut count = 0;
        match raw::cut(source, lists.each_mut().map(|list| &mut list[..]), &mut count) {
            0 => {
                for list in &mut lists {
                    list.truncate(count as usize);
                    list.shrink_to_fit();
                }
                let [ids, starts, ends] = lists;
                return Ok(Rows { ids, starts, ends });
            }
            13 => room = 2 * room + 1,
            number => return Err(Refusal::of(number)),
        }
    }
}

/// Reads rows over their source.
pub fn read(source: &[u8], rows: &Rows, options: &Options) -> Result<Reading, Refusal> {
    let mut scratch = vec![0; raw::scratch_words(rows.len())];
    let lists = [&rows.ids[..], &rows.starts, &rows.ends];
    // Most files need less than three events a row, and have few errors.
    let mut event_room = raw::event::SIZE * (3 * rows.len() + 64);
    let mut error_room = rows.len() + 256;
    loop {
        let (mut events, mut errors) = (vec![0; event_room], vec![0; error_room]);
        let mut answer = [0; 5];
        let lent = raw::Lent { scratch: &mut scratch, events: &mut events, errors: &mut errors };
        match raw::read(source, lists, &options.settings, options.edition, options.fuel, lent, &mut answer) {
            0 => return Ok(answered(answer, events, &errors)),
            7 => event_room *= 2,
            8 => error_room *= 2,
            19 => return Err(Refusal::SettingsLine(answer[0])),
            number => return Err(Refusal::of(number)),
        }
    }
}

fn answered([outcome, rows, events, errors, fuel]: raw::Answer, list: Vec<u32>, records: &[u32]) -> Reading {
    let outcome = match outcome {
        0 => Outcome::Done,
        1 => Outcome::OutOfFuel,
        2 => Outcome::TooDeep,
        other => unreachable!("the library gives no outcome {other}"),
    };
    Reading {
        outcome,
        rows,
        fuel,
        events: Events::new(list, events),
        errors: ErrorRecord::list(records, errors),
    }
}

/// Cuts and reads rule text.
pub fn check(source: &[u8], options: &Options) -> Result<Reading, Refusal> {
    read(source, &cut(source)?, options)
}

/// Calls with a room that doubles while it is refused as too small by the number `full`.
fn grown<T: Clone + Default>(
    mut room: usize,
    full: u32,
    mut call: impl FnMut(&mut [T], &mut u32) -> u32,
) -> Result<(Vec<T>, u32), Refusal> {
    loop {
        let (mut list, mut count) = (vec![T::default(); room], 0);
        match call(&mut list, &mut count) {
            0 => return Ok((list, count)),
            number if number == full => room = 2 * room + 1,
            number => return Err(Refusal::of(number)),
        }
    }
}
