//! What the program writes for an input.

use crate::Model;
use common::{input, listing, reading_of, EVENT};

const BYTES: usize = 65_536;
const ROWS: usize = 4_096;
const EVENT_ROOM: usize = EVENT * 3_276;
const ERROR_ROOM: usize = 16_384;

/// `open` gives the bytes of a named file, or nothing if it cannot be had, which counts as line 1.
pub fn answer(input: &[u8], open: impl Fn(&[u8]) -> Option<Vec<u8>>) -> String {
    let Some(source) = input::file(input).and_then(|f| open(&f)) else {
        return "L\t1\nN\t1\n".to_string();
    };
    let lines = match input::read(input, false) {
        Ok(lines) => lines,
        Err(line) => return format!("L\t1\nN\t{line}\n"),
    };
    if source.len() > BYTES || lines.ids.len() > ROWS {
        return "L\t1\nF\t1\n".to_string();
    }
    match reading_of(&Model, &lines.question(source, EVENT_ROOM, ERROR_ROOM)) {
        Ok(reading) => listing::listing(&reading, &reading.merged),
        Err(refusal) => format!("L\t1\nF\t{refusal}\n"),
    }
}
