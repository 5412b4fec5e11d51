//! Error records and their messages.

use crate::raw::{self, record};
use crate::{Name, Refusal};

/// What a rule file has wrong at one place.
#[derive(Clone, Debug, PartialEq, Eq)]
pub struct ErrorRecord {
    /// Which of the ten forms it has.
    pub form: Form,
    /// Where it starts in the source, in bytes from 0.
    pub start: u32,
    /// Where it ends.
    pub end: u32,
    /// What was expected, in forms 1 to 3.
    pub names: Vec<Name>,
    /// Of text that is not UTF-8: where the byte is that cannot begin or continue a character.
    pub place: Option<u32>,
    /// The number of its item in the file, from 1: a rule, an import or include line, or rows that begin none.
    pub item: u32,
}

/// The ten forms of an error, by their numbers.
#[derive(Clone, Copy, Debug, PartialEq, Eq, Hash)]
#[repr(u32)]
pub enum Form {
    /// Something else was expected than what was found, which the message quotes.
    Expecting = 1,
    /// Something else was expected than what was found, which is too long to quote.
    ExpectingOther = 2,
    /// Something was expected where the file ends.
    ExpectingMore = 3,
    /// What was found fits nowhere here.
    Unexpected = 4,
    /// The file ends where it cannot.
    UnexpectedEnd = 5,
    /// A comment is never closed.
    UnclosedComment = 6,
    /// A literal string is never closed.
    UnclosedString = 7,
    /// A regular expression is never closed.
    UnclosedRegexp = 8,
    /// Text that is not UTF-8.
    InvalidUtf8 = 9,
    /// Neither a rule nor an import or include statement begins here.
    NoItem = 10,
}

impl Form {
    /// All of them, in the order of their numbers.
    pub const ALL: [Form; 10] = [
        Form::Expecting,
        Form::ExpectingOther,
        Form::ExpectingMore,
        Form::Unexpected,
        Form::UnexpectedEnd,
        Form::UnclosedComment,
        Form::UnclosedString,
        Form::UnclosedRegexp,
        Form::InvalidUtf8,
        Form::NoItem,
    ];

    /// Its number, 1 to 10.
    pub fn number(self) -> u32 {
        self as u32
    }

    /// The form with this number.
    pub fn of(number: u32) -> Option<Self> {
        Self::ALL.into_iter().find(|form| form.number() == number)
    }
}

impl ErrorRecord {
    /// The record as it stands in the reader's list, for [`raw`].
    pub fn numbers(&self) -> Vec<u32> {
        let mut numbers = vec![0; record::HEAD];
        numbers[record::START] = self.start;
        numbers[record::END] = self.end;
        numbers[record::FORM] = self.form.number();
        numbers[record::COUNT] = self.names.len() as u32;
        numbers[record::ITEM] = self.item;
        numbers.extend(self.names.iter().map(|name| name.0));
        numbers.extend(self.place);
        numbers
    }

    fn of(numbers: &[u32]) -> Self {
        let (head, rest) = numbers.split_at(record::HEAD);
        let (names, place) = rest.split_at(head[record::COUNT] as usize);
        Self {
            form: Form::of(head[record::FORM]).expect("the library writes forms 1 to 10"),
            start: head[record::START],
            end: head[record::END],
            names: names.iter().copied().map(Name).collect(),
            place: place.first().copied(),
            item: head[record::ITEM],
        }
    }

    /// The first records of a list that the reader wrote.
    pub(crate) fn list(mut numbers: &[u32], count: u32) -> Vec<Self> {
        let mut next = || {
            let (first, rest) = raw::split_record(numbers);
            numbers = rest;
            Self::of(first)
        };
        (0..count).map(|_| next()).collect()
    }
}

/// The message of an error record for people. The record must be of this source, else it may be refused 11.
pub fn message(source: &[u8], record: &ErrorRecord) -> Result<String, Refusal> {
    let numbers = record.numbers();
    let call = |room: &mut [u8], length: &mut u32| raw::message(source, &numbers, room, length);
    let (mut room, length) = crate::grown(256, 12, call)?;
    room.truncate(length as usize);
    Ok(String::from_utf8_lossy(&room).into_owned())
}
