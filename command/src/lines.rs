//! Lines and columns of a source.

use std::cell::Cell;
use std::ops::Range;

pub struct Lines<'a> {
    source: &'a [u8],
    /// Where each line starts. A line ends with its line feed.
    starts: Vec<usize>,
    /// A place and the characters before it in its line: the next place asked for is mostly behind it.
    last: Cell<(usize, usize)>,
}

/// A place by line and column, both from 1; the column counts bytes.
#[derive(Clone, Copy, Debug, PartialEq, Eq)]
pub struct Spot {
    pub line: usize,
    pub column: usize,
}

impl<'a> Lines<'a> {
    pub fn new(source: &'a [u8]) -> Self {
        let feeds = source.iter().enumerate().filter(|(_, byte)| **byte == b'\n');
        let starts = std::iter::once(0).chain(feeds.map(|(i, _)| i + 1)).collect();
        Self { source, starts, last: Cell::new((0, 0)) }
    }

    fn line(&self, place: usize) -> usize {
        self.starts.partition_point(|start| *start <= place) - 1
    }

    pub fn spot(&self, place: usize) -> Spot {
        let line = self.line(place);
        Spot { line: line + 1, column: place - self.starts[line] + 1 }
    }

    /// The column in characters, from 1.
    pub fn character(&self, place: usize) -> usize {
        let start = self.starts[self.line(place)];
        let (before, count) = match self.last.get() {
            (before, count) if start <= before && before <= place => (before, count),
            _ => (start, 0),
        };
        let count = count + String::from_utf8_lossy(&self.source[before..place]).chars().count();
        self.last.set((place, count));
        count + 1
    }

    /// The bytes of the line that a place is in, without its end.
    pub fn span(&self, place: usize) -> Range<usize> {
        let line = self.line(place);
        let start = self.starts[line];
        let mut end = self.starts.get(line + 1).map_or(self.source.len(), |next| next - 1);
        if end > start && self.source[end - 1] == b'\r' {
            end -= 1;
        }
        start..end
    }
}

#[cfg(test)]
mod tests {
    use super::*;

    #[test]
    fn lines_end_with_their_feed() {
        let lines = Lines::new(b"ab\r\n\ncd");
        let spots = [(0, 1, 1), (3, 1, 4), (4, 2, 1), (5, 3, 1), (7, 3, 3)];
        for (place, line, column) in spots {
            assert_eq!(lines.spot(place), Spot { line, column });
        }
        assert_eq!(lines.span(1), 0..2);
        assert_eq!(lines.span(4), 4..4);
        assert_eq!(lines.span(7), 5..7);
        assert_eq!(Lines::new(b"a\n").spot(2), Spot { line: 2, column: 1 });
        assert_eq!(Lines::new(b"").spot(0), Spot { line: 1, column: 1 });
    }

    #[test]
    fn characters_are_counted_from_any_place() {
        let lines = Lines::new("aé\té€x\nyé".as_bytes());
        for (place, column) in [(0, 1), (1, 2), (3, 3), (4, 4), (9, 6), (4, 4), (11, 1), (12, 2), (14, 3)] {
            assert_eq!(lines.character(place), column, "{place}");
        }
    }
}
