//! Vectors: questions with the Rust's answers, which the program crates/vectors replays without the Rust.

use crate::cases::{stored_paths, stored_question};
use crate::judge::{judge, Seen};
use crate::tally::{report, Tally};
use crate::{differing, hash, library, round};
use common::kinds::id;
use common::{Question, Reading, Record, EVENT};
use generate::{case, Sort, SORTS};
use std::collections::HashSet;
use std::path::Path;

/// The rooms that the program lends, in numbers.
const ROOM: usize = 16_384;

/// How many cases of a sort are looked at for one vector before it is the next sort's turn.
const TRIES: usize = 40;

/// The longest line, in bytes. Most vectors are short, so that many fit a small file.
fn longest(number: usize) -> usize {
    if number % 40 == 39 {
        4_000
    } else if has_texts(number) {
        600
    } else {
        450
    }
}

/// Files are never short, so every second long vector is one.
fn is_file(number: usize) -> bool {
    number % 80 == 79
}

/// Texts are seen in errors only. Three vectors in four do without most of them, so that their lines have
/// place for more rows.
fn has_texts(number: usize) -> bool {
    number.is_multiple_of(4)
}

/// A row with a text of one byte, but where the text may decide a form.
fn without_text((row, text): (u32, Vec<u8>)) -> (u32, Vec<u8>) {
    let decides = row == id::UNKNOWN || !text[0].is_ascii();
    (row, if decides { text } else { vec![text[0]] })
}

/// Whether a line may be the vector with this number, out of so many. The last ones show the rare forms.
fn is_wanted(number: usize, count: usize, seen: &Seen, line: &str) -> bool {
    let has_rare = seen.forms.iter().any(|form| matches!(form, 2 | 4 | 6 | 7 | 8));
    let is_last = number >= count - count / 20 && !is_file(number);
    line.len() <= longest(number) && (has_rare || !is_last)
}

/// Prints a vector for each stored case of a folder, if one is given, and then as many made from the seed as
/// asked for, no two alike, of one sort if one is named. What they are is told on the other stream.
pub fn print(count: usize, seed: u64, folder: Option<&Path>, only: Option<Sort>) -> Result<(), String> {
    if let Some(folder) = folder {
        print_stored(folder).map_err(|e| e.to_string())?;
    }
    let mut tallies = vec![Tally::default(); SORTS.len()];
    let mut made = vec![0; SORTS.len()];
    let mut distinct = HashSet::new();
    let file = round(|sort| sort == Sort::File)[0];
    let is_other = |sort| !matches!(sort, Sort::File | Sort::Room | Sort::Refusal);
    let others = round(|sort| only.map_or(is_other(sort), |s| s == sort));
    for other in others.into_iter().cycle() {
        if distinct.len() == count {
            break;
        }
        let i = if only.is_none() && is_file(distinct.len()) { file } else { other };
        for _ in 0..TRIES {
            let question = question(SORTS[i].0, seed, made[i], has_texts(distinct.len()));
            let seen = judge(&question, library())
                .map_err(|e| differing(SORTS[i].0, seed, made[i], &question, &e))?;
            made[i] += 1;
            if !is_within(&seen) {
                continue;
            }
            let line = line(&question, &oracle::read(&question));
            if is_wanted(distinct.len(), count, &seen, &line) && distinct.insert(hash(&question)) {
                println!("{line}");
                tallies[i].add(&seen);
                break;
            }
        }
    }
    eprint!("{}", report(&tallies, count));
    Ok(())
}

fn print_stored(folder: &Path) -> Result<(), Box<dyn std::error::Error>> {
    for path in stored_paths(folder)? {
        let question = stored_question(&path)?;
        println!("{}", line(&question, &oracle::read(&question)));
    }
    Ok(())
}

/// A case with the program's rooms. Short sequences are numbered by length, so that without gaps only the
/// shortest would come.
fn question(sort: Sort, seed: u64, made: u64, has_texts: bool) -> Question {
    let question = case(sort, seed, if sort == Sort::Short { 991 * made } else { made });
    let mut rows = question.rows().unwrap();
    if !has_texts {
        rows = rows.into_iter().map(without_text).collect();
    }
    Question { event_room: ROOM, error_room: ROOM, ..Question::new(&rows, question.fuel) }
}

/// The domain: not refused and not too deep.
fn is_within(seen: &Seen) -> bool {
    seen.refusal == 0 && seen.outcome < 2
}

/// Fuel, counts of bytes and rows; outcome, rows covered, fuel left, counts of events and records; then the
/// source, ids, the bounds of the rows from 0 on, events, without the depths that the Rust does not tell, and records, without
/// their items.
fn line(question: &Question, rust: &Reading) -> String {
    let without_item = |record: &Record| [&record.numbers()[..3], &record.numbers()[4..]].concat();
    let records: Vec<u32> = rust.records.iter().flat_map(without_item).collect();
    let count = |n: usize| n as u32;
    let head = [
        question.fuel,
        count(question.source.len()),
        count(question.ids.len()),
        rust.outcome,
        rust.rows,
        rust.fuel,
        count(rust.raw.len()),
        count(rust.records.len()),
    ];
    let events: Vec<u32> = rust.raw.iter().flat_map(|event| event[..EVENT - 1].to_vec()).collect();
    let source: Vec<u32> = question.source.iter().map(|b| u32::from(*b)).collect();
    let parts = [&head[..], &source, &question.ids, &[0], &question.ends, &events, &records];
    let words: Vec<String> = parts.concat().iter().map(u32::to_string).collect();
    words.join(" ")
}
