//! One reading by each side, from rows to merged events, with its time.

use common::{scratch_words, strip_empty_errors, Event, Question, EVENT};
use library::{cut_into, merge_into, read_into, Lent};
use std::time::Duration;

/// Rooms that are lent: so many events and numbers of error records for each row, and some besides.
const EVENTS_A_ROW: usize = 8;
const ERRORS_A_ROW: usize = 16;
const BESIDES: usize = 256;
const MOST_ROWS: usize = 65_536;

/// Ours, with buffers for the longest file. They are allocated once and never cleared here; a file is lent
/// as much of them as its rows ask for, and the reader itself puts zeros past its lists.
pub struct Ours {
    scratch: Vec<u64>,
    events: Vec<u32>,
    errors: Vec<u32>,
    merged: Vec<u32>,
    /// What was answered last: outcome, rows covered, counts of events and error records, fuel left.
    pub answer: [u32; 5],
}

impl Ours {
    pub fn new() -> Self {
        let events = event_room(MOST_ROWS);
        Self {
            scratch: vec![1; scratch_words(MOST_ROWS)],
            events: vec![1; events],
            errors: vec![1; error_room(MOST_ROWS)],
            merged: vec![1; events],
            answer: [0; 5],
        }
    }

    /// Timed: the two calls. The merger is lent as much room as its list is long.
    pub fn read(&mut self, q: &Question) -> (Duration, &[u32]) {
        let rows = q.ids.len();
        let mut count = 0;
        let start = cpu();
        let lent = Lent {
            scratch: &mut self.scratch[..scratch_words(rows)],
            events: &mut self.events[..event_room(rows)],
            errors: &mut self.errors[..error_room(rows)],
        };
        let refusal = read_into(q, lent, &mut self.answer);
        let raw = &self.events[..EVENT * self.answer[2] as usize];
        let refusal_of_merge = merge_into(raw, &mut self.merged[..raw.len()], &mut count);
        let time = cpu() - start;
        assert_eq!((refusal, refusal_of_merge), (0, 0), "{rows} rows are refused");
        (time, &self.merged[..EVENT * count as usize])
    }
}

/// The rows of a text, as a question with the fuel that the Rust starts with, and the time that cutting took.
/// The lists are as long as the text, which is always enough.
pub fn cut(source: &[u8]) -> (Duration, Question) {
    let mut lists = [(); 3].map(|()| vec![1; source.len()]);
    let mut count = 0;
    let start = cpu();
    let refusal = cut_into(source, lists.each_mut().map(|list| &mut list[..]), &mut count);
    let time = cpu() - start;
    assert_eq!(refusal, 0, "a text is refused");
    lists.iter_mut().for_each(|list| list.truncate(count as usize));
    let [ids, starts, ends] = lists;
    let fuel = 100_000_000;
    (time, Question { source: source.to_vec(), ids, starts, ends, ..Question::new(&[], fuel) })
}

fn event_room(rows: usize) -> usize {
    EVENT * (EVENTS_A_ROW * rows + BESIDES)
}

fn error_room(rows: usize) -> usize {
    ERRORS_A_ROW * rows + BESIDES
}

/// The crate, with a list that keeps its memory from reading to reading.
pub struct Crate(Vec<oracle::cst::Event>);

impl Crate {
    pub fn new() -> Self {
        Self(Vec::with_capacity(EVENTS_A_ROW * MOST_ROWS))
    }

    /// Timed: taking all merged events out of the crate's iterators into the list. Not timed: the tokens
    /// made of the rows, the stand-in tokenizer's queue of them, and giving parser and events free.
    pub fn read(&mut self, q: &Question) -> Duration {
        self.0.clear();
        let mut merged = oracle::merged(q);
        let start = cpu();
        self.0.extend(&mut merged);
        cpu() - start
    }
}

/// Both sides must have read the same before any time counts.
pub fn check(q: &Question, ours: &mut Ours) {
    let mine: Vec<Event> = common::events_of(ours.read(q).1);
    assert_eq!(strip_empty_errors(&mine), oracle::read(q).merged, "the sides differ");
}

/// The time that this thread has had of a processor, so that other work on the machine counts less.
fn cpu() -> Duration {
    #[repr(C)]
    struct Timespec {
        seconds: i64,
        nanoseconds: i64,
    }
    extern "C" {
        fn clock_gettime(clock: i32, time: *mut Timespec) -> i32;
    }
    const THREAD_CPUTIME: i32 = 3;
    let mut time = Timespec { seconds: 0, nanoseconds: 0 };
    // SAFETY: on 64-bit Linux, where this is built, the structure is the C one.
    assert_eq!(unsafe { clock_gettime(THREAD_CPUTIME, &mut time) }, 0);
    Duration::new(time.seconds as u64, time.nanoseconds as u32)
}
