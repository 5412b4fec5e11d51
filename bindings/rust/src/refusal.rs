//! Why the library gave no answer.

use std::fmt;

/// A refusal of the library. Those for want of room (6, 7, 8, 12, 13, 14) are met by larger buffers and not seen.
#[derive(Clone, Copy, Debug, PartialEq, Eq, Hash)]
#[non_exhaustive]
pub enum Refusal {
    /// 1: the source has over 1,048,576 bytes, or there are over 65,536 rows.
    TooLong,
    /// 2: ids, starts and ends differ in length.
    Lengths,
    /// 3: an id that is none.
    UnknownId,
    /// 4: rows that do not tile the source.
    NotTiled,
    /// 9: no list of events.
    NotEvents,
    /// 10: an ERROR end with none open, or a begin never closed.
    OpenError,
    /// 11: an error record that does not read, as one of another source.
    NotRecord,
    /// 15: events that do not nest, or the outline of an event that opens no node.
    NotNested,
    /// 18: an edition that the settings text does not have.
    UnknownEdition,
    /// 19: a line of the settings text, by its number from 1, that does not read, has a value outside its range or a number out of turn.
    SettingsLine(u32),
    /// Any other number.
    Other(u32),
}

const NUMBERED: [(u32, Refusal, &str); 9] = [
    (1, Refusal::TooLong, "over 1,048,576 bytes, or over 65,536 rows"),
    (2, Refusal::Lengths, "ids, starts and ends that differ in length"),
    (3, Refusal::UnknownId, "an id that is none"),
    (4, Refusal::NotTiled, "rows that do not tile the source"),
    (9, Refusal::NotEvents, "no list of events"),
    (10, Refusal::OpenError, "an ERROR end with none open, or a begin never closed"),
    (11, Refusal::NotRecord, "an error record that does not read"),
    (15, Refusal::NotNested, "events that do not nest, or no node opened at the index"),
    (18, Refusal::UnknownEdition, "an edition that the settings do not have"),
];

impl Refusal {
    /// The refusal with this number.
    pub fn of(number: u32) -> Self {
        NUMBERED.iter().find(|row| row.0 == number).map_or(Self::Other(number), |row| row.1)
    }

    /// Its number, as README has it.
    pub fn number(self) -> u32 {
        match self {
            Self::Other(number) => number,
            Self::SettingsLine(_) => 19,
            _ => self.row().map_or(0, |row| row.0),
        }
    }

    fn row(self) -> Option<&'static (u32, Self, &'static str)> {
        NUMBERED.iter().find(|row| row.1 == self)
    }
}

impl fmt::Display for Refusal {
    fn fmt(&self, f: &mut fmt::Formatter) -> fmt::Result {
        match self.row() {
            Some(row) => write!(f, "refusal {}: {}", row.0, row.2),
            None => match self {
                Self::SettingsLine(line) => write!(f, "refusal 19: line {line} of the settings does not read"),
                _ => write!(f, "refusal {}", self.number()),
            },
        }
    }
}

impl std::error::Error for Refusal {}
