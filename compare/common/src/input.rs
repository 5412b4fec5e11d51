//! The program's input: `S`, file name, fuel; then `T`, id, start, end per row, parted by tabs.

use crate::kinds::IDS;
use crate::{scratch_words, Question, TODAY};

/// What the lines say. The file is named and not yet opened.
#[derive(Clone, Debug, PartialEq, Eq)]
pub struct Lines {
    pub file: Vec<u8>,
    pub fuel: u32,
    pub ids: Vec<u32>,
    pub starts: Vec<u32>,
    pub ends: Vec<u32>,
}

/// Reads the lines, or gives the number, from 1, of the first that does not read.
/// `by_name` also takes ids by their names, which the program itself does not.
pub fn read(input: &[u8], by_name: bool) -> Result<Lines, usize> {
    let body = input.strip_suffix(b"\n").unwrap_or(input);
    if input.is_empty() {
        return Err(1);
    }
    let mut lines = body.split(|b| *b == b'\n');
    let (file, fuel) = first(lines.next().unwrap()).ok_or(1usize)?;
    let mut read = Lines { file, fuel, ids: vec![], starts: vec![], ends: vec![] };
    for (i, line) in lines.enumerate() {
        let (id, start, end) = row(line, by_name).ok_or(i + 2)?;
        read.ids.push(id);
        read.starts.push(start);
        read.ends.push(end);
    }
    Ok(read)
}

/// The file that line 1 names, if that line reads.
pub fn file(input: &[u8]) -> Option<Vec<u8>> {
    first(input.split(|b| *b == b'\n').next()?).map(|(file, _)| file)
}

impl Lines {
    /// The question that the lines ask of a source, with the given rooms.
    pub fn question(&self, source: Vec<u8>, event_room: usize, error_room: usize) -> Question {
        Question {
            source,
            ids: self.ids.clone(),
            starts: self.starts.clone(),
            ends: self.ends.clone(),
            fuel: self.fuel,
            limits: TODAY,
            scratch: scratch_words(self.ids.len()),
            event_room,
            error_room,
        }
    }
}

fn first(line: &[u8]) -> Option<(Vec<u8>, u32)> {
    let [b"S", file, fuel] = fields(line)[..] else { return None };
    let whole = !file.is_empty() && !file.contains(&b'\r');
    whole.then_some((file.to_vec(), number(fuel)?))
}

fn row(line: &[u8], by_name: bool) -> Option<(u32, u32, u32)> {
    let [b"T", id, start, end] = fields(line)[..] else { return None };
    let named = IDS.iter().position(|n| by_name && n.as_bytes() == id);
    let id = named.map(|i| i as u32).or_else(|| number(id))?;
    Some((id, number(start)?, number(end)?))
}

fn fields(line: &[u8]) -> Vec<&[u8]> {
    line.split(|b| *b == b'\t').collect()
}

/// Digits only, at least one, under 2^32; leading zeros are allowed.
fn number(text: &[u8]) -> Option<u32> {
    if text.is_empty() || !text.iter().all(u8::is_ascii_digit) {
        return None;
    }
    text.iter().try_fold(0u32, |n, d| n.checked_mul(10)?.checked_add(u32::from(d - b'0')))
}
