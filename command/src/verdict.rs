//! One file, and what the library says of it.

use crate::lines::Lines;
use crate::walk::{words, Found};
use stableglow::{message, raw, Outcome, Reading, Refusal, Rows};
use std::fs::File;
use std::io::{self, Read};
use std::path::{Path, PathBuf};

pub struct Checked {
    pub path: PathBuf,
    pub source: Vec<u8>,
    pub verdict: Verdict,
}

pub enum Verdict {
    /// Read to its end, or to where it was stopped.
    Read(Rows, Reading),
    /// The refusal's number, and the reason in words.
    Refused(u32, String),
    /// It could not be opened or read.
    Unread(String),
}

/// Where a file is counted. The worst comes last.
#[derive(Clone, Copy, Debug, PartialEq, Eq, PartialOrd, Ord)]
pub enum Status {
    Accepted,
    Errors,
    Stopped,
    Refused,
    Unread,
}

/// The names of the statuses in JSON, in their order.
pub const KEYS: [&str; 5] = ["accepted", "errors", "stopped", "refused", "unread"];

impl Status {
    /// Its name in JSON.
    pub fn key(self) -> &'static str {
        KEYS[self as usize]
    }

    /// The command's exit status if this is the worst.
    pub fn exit(self) -> u8 {
        match self {
            Status::Accepted => 0,
            Status::Errors => 1,
            _ => 2,
        }
    }
}

impl Checked {
    pub fn of(found: Found, fuel: u32) -> Self {
        let (path, read) = match found {
            Found::Trouble(path, why) => (path, Err(why)),
            Found::File(path) => {
                let read = bytes(&path).map_err(|error| words(&error));
                (path, read)
            }
        };
        match read {
            Err(why) => Self { path, source: Vec::new(), verdict: Verdict::Unread(why) },
            Ok(source) => {
                let verdict = judge(&source, fuel);
                Self { path, source, verdict }
            }
        }
    }

    pub fn status(&self) -> Status {
        match &self.verdict {
            Verdict::Read(_, reading) if reading.outcome != Outcome::Done => Status::Stopped,
            Verdict::Read(_, reading) if reading.accepted() => Status::Accepted,
            Verdict::Read(..) => Status::Errors,
            Verdict::Refused(..) => Status::Refused,
            Verdict::Unread(_) => Status::Unread,
        }
    }

    /// Its path as text.
    pub fn name(&self) -> String {
        match self.path.to_str() {
            Some("-") => "<stdin>".to_string(),
            _ => self.path.to_string_lossy().into_owned(),
        }
    }

    /// The errors with their places and messages, in their order.
    pub fn told(&self) -> Vec<Told> {
        let Verdict::Read(_, reading) = &self.verdict else { return Vec::new() };
        let told = |record: &stableglow::ErrorRecord| {
            // Text that is not UTF-8 is shown by its bad byte and not by the whole token.
            let (start, end) = match record.place {
                Some(place) => (place, place + 1),
                None => (record.start, record.end),
            };
            let text = message(&self.source, record).unwrap_or_else(|refusal| refusal.to_string());
            Told { form: record.form, item: record.item, start: start as usize, end: end as usize, text }
        };
        reading.errors.iter().map(told).collect()
    }

    /// Where a reading stopped, and why: the start of the first row that it did not cover.
    pub fn stop(&self) -> Option<(usize, &'static str)> {
        let Verdict::Read(rows, reading) = &self.verdict else { return None };
        let why = match reading.outcome {
            Outcome::Done => return None,
            Outcome::OutOfFuel => "out of fuel",
            Outcome::TooDeep => "too deep",
        };
        let place = rows.starts.get(reading.rows as usize).map_or(self.source.len(), |&start| start as usize);
        Some((place, why))
    }

    /// What a stop means. The item that a reading stops in is closed as it stands, which may read as an error.
    pub fn stop_words(&self, why: &str) -> String {
        let any = matches!(&self.verdict, Verdict::Read(_, reading) if !reading.errors.is_empty());
        let errors = if any { ", and an error there may come of that" } else { "" };
        format!("{why}; what follows was not read{errors}")
    }

    pub fn lines(&self) -> Lines<'_> {
        Lines::new(&self.source)
    }
}

/// An error as it is told: its form, the part of the source that is shown, and the library's message.
pub struct Told {
    pub form: stableglow::Form,
    /// The number of its item in the file, from 1.
    pub item: u32,
    pub start: usize,
    pub end: usize,
    pub text: String,
}

/// A file's bytes, and of one that is longer than the library takes one byte more than that: it is refused then.
fn bytes(path: &Path) -> io::Result<Vec<u8>> {
    let most = raw::MOST_BYTES as u64 + 1;
    let mut bytes = Vec::new();
    if path.as_os_str() == "-" {
        io::stdin().lock().take(most).read_to_end(&mut bytes)?;
    } else {
        File::open(path)?.take(most).read_to_end(&mut bytes)?;
    }
    Ok(bytes)
}

fn judge(source: &[u8], fuel: u32) -> Verdict {
    let rows = match stableglow::cut(source) {
        Ok(rows) => rows,
        Err(Refusal::TooLong) => return Verdict::Refused(1, "over 1,048,576 bytes".to_string()),
        Err(other) => return Verdict::Refused(other.number(), other.to_string()),
    };
    match stableglow::read(source, &rows, &stableglow::Options::with_fuel(fuel)) {
        Ok(reading) => Verdict::Read(rows, reading),
        Err(Refusal::TooLong) => {
            Verdict::Refused(1, format!("{} rows of tokens, over 65,536", grouped(rows.len())))
        }
        Err(other) => Verdict::Refused(other.number(), other.to_string()),
    }
}

/// A number with its thousands parted.
pub fn grouped(number: usize) -> String {
    let digits = number.to_string();
    let mut out = String::new();
    for (i, digit) in digits.chars().enumerate() {
        if i > 0 && (digits.len() - i).is_multiple_of(3) {
            out.push(',');
        }
        out.push(digit);
    }
    out
}
