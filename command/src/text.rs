//! Text for people: colours, and the source line with a caret.

use crate::json::Object;
use crate::lines::Lines;
use crate::options::Color;
use crate::verdict::{grouped, Checked, Status, Verdict, KEYS};
use std::env;
use std::fmt::Write;
use std::io::{self, IsTerminal};

/// Colours, or none.
#[derive(Clone, Copy)]
pub struct Paint(bool);

pub const RED: u8 = 31;
pub const GREEN: u8 = 32;
pub const YELLOW: u8 = 33;
pub const BLUE: u8 = 34;

impl Paint {
    pub fn new(color: Color) -> Self {
        let unset = |name| env::var_os(name).is_none_or(|value| value.is_empty());
        let dumb = || env::var_os("TERM").is_some_and(|term| term == "dumb");
        match color {
            Color::Always => Self(true),
            Color::Never => Self(false),
            Color::Auto => Self(io::stdout().is_terminal() && unset("NO_COLOR") && !dumb()),
        }
    }

    pub fn paint(self, color: u8, text: &str) -> String {
        match self.0 {
            true => format!("\x1b[1;{color}m{text}\x1b[0m"),
            false => text.to_string(),
        }
    }
}

/// Text as it may stand on a terminal: signs that steer it, and those that turn the direction of writing, are
/// shown by stand-ins. A tab stays.
pub fn shown(text: &str) -> String {
    text.chars().map(stand_in).collect()
}

fn stand_in(c: char) -> char {
    match c {
        '\t' => c,
        '\0'..='\x1f' => char::from_u32(0x2400 + c as u32).unwrap_or('\u{fffd}'),
        '\x7f' => '\u{2421}',
        '\u{80}'..='\u{9f}' | '\u{200e}' | '\u{200f}' | '\u{2028}'..='\u{202e}' | '\u{2066}'..='\u{2069}' => {
            '\u{fffd}'
        }
        _ => c,
    }
}

/// The cells of a terminal that a character takes. East Asian wide characters take two, combining marks none.
fn cells(c: char) -> usize {
    match c as u32 {
        0x300..=0x36f | 0x200b..=0x200d | 0xfe00..=0xfe0f => 0,
        0x1100..=0x115f | 0x2e80..=0xa4cf | 0xac00..=0xd7a3 | 0xf900..=0xfaff | 0xfe30..=0xfe6f => 2,
        0xff00..=0xff60 | 0xffe0..=0xffe6 | 0x1f300..=0x1f64f | 0x1f900..=0x1f9ff | 0x20000..=0x3fffd => 2,
        _ => 1,
    }
}

/// Bytes of a line that are shown before a place and from it on; a longer line is cut there.
const BEFORE: usize = 100;
const AFTER: usize = 140;

/// The line that a part of the source starts in, and carets under as much of the part as it has.
pub fn snippet(source: &[u8], lines: &Lines, start: usize, end: usize, paint: Paint) -> String {
    let line = lines.span(start);
    let inside = |at: usize| line.contains(&at) && source[at] & 0xc0 == 0x80;
    // A line that is cut is cut between characters; text that is not UTF-8 has no more than three such bytes looked at.
    let mut from = line.start.max(start.saturating_sub(BEFORE));
    (0..3).for_each(|_| from += usize::from(from > line.start && from < start && inside(from)));
    let mut to = line.end.min(start + AFTER).max(from);
    (0..3).for_each(|_| to -= usize::from(to > start && inside(to)));
    let part = |from: usize, to: usize| shown(&String::from_utf8_lossy(&source[from..to.max(from)]));
    let start = start.min(line.end);
    let (left, right) = (if from > line.start { "…" } else { "" }, if to < line.end { "…" } else { "" });
    let (before, rest) = (part(from, start), part(start, to));
    let mut pad = " ".repeat(left.chars().count());
    for c in before.chars() {
        match c {
            '\t' => pad.push('\t'),
            _ => pad.extend(std::iter::repeat_n(' ', cells(c))),
        }
    }
    let under: usize = part(start, end.min(to)).chars().map(cells).sum();
    let bar = paint.paint(BLUE, "|");
    let number = paint.paint(BLUE, &format!("{:>5}", lines.spot(start).line));
    let carets = paint.paint(RED, &"^".repeat(under.max(1)));
    format!("{number} {bar} {left}{before}{rest}{right}\n      {bar} {pad}{carets}\n")
}

/// What check says of a file.
pub fn file(checked: &Checked, paint: Paint) -> String {
    let (name, lines, mut out) = (shown(&checked.name()), checked.lines(), String::new());
    let at = |place: usize| {
        let spot = lines.spot(place);
        format!("{name}:{}:{}", spot.line, spot.column)
    };
    for told in checked.told() {
        let (word, text) = (paint.paint(RED, "error"), shown(&told.text));
        writeln!(out, "{}: {word}: {text}", at(told.start)).unwrap();
        out += &snippet(&checked.source, &lines, told.start, told.end, paint);
    }
    match &checked.verdict {
        Verdict::Refused(_, why) => {
            writeln!(out, "{name}: {}: {}", paint.paint(YELLOW, "refused"), shown(why)).unwrap();
        }
        Verdict::Unread(why) => {
            writeln!(out, "{name}: {}: {}", paint.paint(YELLOW, "not read"), shown(why)).unwrap();
        }
        Verdict::Read(..) if checked.status() == Status::Accepted => {
            writeln!(out, "{name}: {}", paint.paint(GREEN, "accepted")).unwrap();
        }
        Verdict::Read(..) => {
            if let Some((place, why)) = checked.stop() {
                let word = paint.paint(YELLOW, "stopped");
                writeln!(out, "{}: {word}: {}", at(place), checked.stop_words(why)).unwrap();
                out += &snippet(&checked.source, &lines, place, place, paint);
            }
        }
    }
    out
}

/// Files by their status.
#[derive(Clone, Copy, Default)]
pub struct Tally(pub [usize; 5]);

impl Tally {
    pub fn add(&mut self, status: Status) {
        self.0[status as usize] += 1;
    }

    pub fn files(&self) -> usize {
        self.0.iter().sum()
    }

    pub fn object(&self) -> String {
        let object = Object::new().with("files", self.files());
        KEYS.iter().zip(self.0).fold(object, |object, (key, count)| object.with(key, count)).end()
    }

    pub fn line(&self) -> String {
        let [accepted, errors, stopped, refused, unread] = self.0.map(grouped);
        let files = self.files();
        let s = if files == 1 { "" } else { "s" };
        format!(
            "{} file{s}: {accepted} accepted, {errors} with errors, {stopped} stopped, {refused} refused, \
             {unread} not read\n",
            grouped(files)
        )
    }
}

#[cfg(test)]
mod tests {
    use super::*;

    fn plain(source: &[u8], start: usize, end: usize) -> String {
        snippet(source, &Lines::new(source), start, end, Paint(false))
    }

    #[test]
    fn carets_stand_under_their_part() {
        assert_eq!(plain(b"a bcd e\nf", 2, 5), "    1 | a bcd e\n      |   ^^^\n");
        assert_eq!(plain(b"x\n\ta b", 5, 6), "    2 | \ta b\n      | \t  ^\n");
        // Characters of two bytes, of two cells, and a mark of none.
        assert_eq!(plain("éé b".as_bytes(), 5, 6), "    1 | éé b\n      |    ^\n");
        assert_eq!(plain("漢 b".as_bytes(), 4, 5), "    1 | 漢 b\n      |    ^\n");
        assert_eq!(plain("e\u{301} b".as_bytes(), 4, 5), "    1 | e\u{301} b\n      |   ^\n");
    }

    #[test]
    fn a_part_ends_with_its_line_and_an_empty_one_has_a_caret() {
        assert_eq!(plain(b"a b\r\nc", 2, 6), "    1 | a b\n      |   ^\n");
        assert_eq!(plain(b"a", 1, 1), "    1 | a\n      |  ^\n");
        assert_eq!(plain(b"", 0, 0), "    1 | \n      | ^\n");
        assert_eq!(plain(b"a\n", 2, 2), "    2 | \n      | ^\n");
        assert_eq!(plain(b"a\r\nb", 2, 3), "    1 | a\n      |  ^\n");
    }

    #[test]
    fn bytes_that_are_no_text_or_steer_a_terminal_have_stand_ins() {
        assert_eq!(plain(b"a\xff b", 3, 4), "    1 | a\u{fffd} b\n      |    ^\n");
        assert_eq!(plain(b"\x1b[2J b", 5, 6), "    1 | \u{241b}[2J b\n      |      ^\n");
        assert_eq!(shown("a\u{202e}b\u{9b}\n"), "a\u{fffd}b\u{fffd}\u{240a}");
    }

    #[test]
    fn a_long_line_is_cut_around_its_part() {
        let source = "é".repeat(300);
        let told = plain(source.as_bytes(), 300, 302);
        let part = "é".repeat(50);
        let behind = "é".repeat(70);
        assert_eq!(told, format!("    1 | …{part}{behind}…\n      | {}^\n", " ".repeat(51)));
    }
}
