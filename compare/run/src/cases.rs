//! The stored cases, and document 01's small files.

use crate::judge::{same_lines, stripped};
use common::kinds::{id, kind, name};
use common::listing::listing;
use common::{counted, input, reading_of, Question, Reading, Record, Side, BEGIN, END, EVENT};
use generate::text::{id_of, OTHERS};
use model::utf8;
use std::error::Error;
use std::fs;
use std::path::{Path, PathBuf};

type Checked = Result<(), Box<dyn Error>>;

/// Every NAME.rows of a folder: the Rust must give NAME.crate, the judge NAME.raw and NAME.listing, and
/// these without empty ERROR nodes must be what the Rust gives.
pub fn stored(folder: &Path, side: &dyn Side) -> Result<usize, Box<dyn Error>> {
    let paths = stored_paths(folder)?;
    for path in &paths {
        one(path, side).map_err(|e| format!("{}: {e}", path.display()))?;
    }
    Ok(paths.len())
}

/// The NAME.rows of a folder, in order.
pub fn stored_paths(folder: &Path) -> Result<Vec<PathBuf>, Box<dyn Error>> {
    let mut paths: Vec<_> = fs::read_dir(folder)?.filter_map(|e| Some(e.ok()?.path())).collect();
    paths.retain(|p| p.extension().is_some_and(|e| e == "rows"));
    paths.sort();
    Ok(paths)
}

/// What a NAME.rows asks of the file that it names.
pub fn stored_question(path: &Path) -> Result<Question, Box<dyn Error>> {
    let lines = input::read(&fs::read(path)?, true).map_err(|n| format!("line {n} does not read"))?;
    let source = fs::read(path.with_file_name(String::from_utf8(lines.file.clone())?))?;
    Ok(lines.question(source, 65_536, 16_384))
}

fn one(path: &Path, side: &dyn Side) -> Checked {
    let question = stored_question(path)?;
    as_cut(&question)?;
    let rust = oracle::read(&question);
    let ours = reading_of(side, &question).map_err(|n| format!("refused, {n}"))?;
    let wanted = |extension: &str| fs::read_to_string(path.with_extension(extension));
    same_lines("crate", &listing(&rust, &rust.merged), &wanted("crate")?)?;
    same_lines("raw", &listing(&ours, &ours.raw), &wanted("raw")?)?;
    same_lines("listing", &listing(&ours, &ours.merged), &wanted("listing")?)?;
    let less = stripped(&ours);
    same_lines("raw, stripped", &listing(&less, &less.raw), &listing(&rust, &rust.raw))?;
    same_lines("listing, stripped", &listing(&less, &less.merged), &wanted("crate")?)?;
    Ok(())
}

/// The stored rows must be what the tokenizer cuts their source into.
fn as_cut(question: &Question) -> Checked {
    let places = question.starts.iter().zip(&question.ends);
    let stored: Vec<_> =
        question.ids.iter().zip(places).map(|(id, (start, end))| (*id, *start, *end)).collect();
    let cut = tokens::rows(&question.source);
    if stored != cut {
        return Err(format!("the tokenizer cuts {cut:?}, stored are {stored:?}").into());
    }
    Ok(())
}

/// Rows of a text whose words are parted by `~`; trivia are cut as single spaces.
pub fn question(text: &str, fuel: u32) -> Question {
    let id = |word: &str| if word == " " { id::WHITESPACE } else { id_of(word) };
    let words = text.split('~').filter(|w| !w.is_empty());
    let rows: Vec<_> = words.map(|w| (id(w), w.as_bytes().to_vec())).collect();
    Question::new(&rows, fuel)
}

const R: &str = "rule~ ~a~{~condition~:~true~}";

struct Small {
    label: &'static str,
    text: &'static str,
    fuel: u32,
    outcome: u32,
    rows: u32,
    left: u32,
    /// Not every small file says how many events there are.
    events: Option<usize>,
    errors: &'static [(u32, u32, u32, &'static [u32])],
}

const SMALL: [Small; 13] = [
    Small { label: "P1", text: "", fuel: 0, outcome: 0, rows: 0, left: 0, events: Some(2), errors: &[] },
    Small { label: "P2", text: R, fuel: 5, outcome: 0, rows: 8, left: 0, events: Some(18), errors: &[] },
    Small {
        label: "P3",
        text: R,
        fuel: 4,
        outcome: 1,
        rows: 6,
        left: 0,
        events: Some(17),
        errors: &[(7, 16, 1, &[name::META_KW, name::STRINGS_KW])],
    },
    Small { label: "P4", text: R, fuel: 1, outcome: 1, rows: 0, left: 0, events: Some(6), errors: &[] },
    Small { label: "P5", text: R, fuel: 0, outcome: 1, rows: 0, left: 0, events: Some(4), errors: &[] },
    Small {
        label: "P6",
        text: "rule~ ~a~{~condition~:~true",
        fuel: 5,
        outcome: 0,
        rows: 7,
        left: 0,
        events: None,
        errors: &[(21, 21, 3, &[name::OPERATOR, name::R_BRACE])],
    },
    Small {
        label: "P7",
        text: "@~ ~rule~ ~a~{~condition~:~true~}",
        fuel: 5,
        outcome: 0,
        rows: 10,
        left: 0,
        events: Some(23),
        errors: &[(0, 1, 10, &[])],
    },
    Small {
        label: "P8",
        text: "rule~ ~a~{~condition~:~true~ ~rule~ ~b~{~condition~:~true~}",
        fuel: 6,
        outcome: 0,
        rows: 16,
        left: 0,
        events: None,
        errors: &[(22, 26, 1, &[name::OPERATOR, name::R_BRACE])],
    },
    Small {
        label: "import, fuel 0",
        text: "import~ ~\"pe\"",
        fuel: 0,
        outcome: 1,
        rows: 0,
        left: 0,
        events: Some(4),
        errors: &[],
    },
    Small {
        label: "import, fuel 1",
        text: "import~ ~\"pe\"",
        fuel: 1,
        outcome: 0,
        rows: 3,
        left: 0,
        events: Some(7),
        errors: &[],
    },
    Small {
        label: "import without its string",
        text: "import~ ~rule~ ~a~{~condition~:~true~}",
        fuel: 6,
        outcome: 0,
        rows: 10,
        left: 0,
        events: Some(23),
        errors: &[(7, 11, 1, &[name::STRING_LIT])],
    },
    Small {
        label: "import swallowed",
        text: "@~ ~import~ ~\"pe\"~ ~rule~ ~a~{~condition~:~true~}",
        fuel: 5,
        outcome: 0,
        rows: 14,
        left: 0,
        events: Some(27),
        errors: &[(0, 1, 10, &[])],
    },
    Small {
        label: "rule, include, rule",
        text: "rule~ ~a~{~condition~:~true~}~ ~include~ ~\"pe\"~ ~rule~ ~b~{~condition~:~true~}",
        fuel: 11,
        outcome: 0,
        rows: 21,
        left: 0,
        events: Some(41),
        errors: &[],
    },
];

const P4: &str =
    "L\t1\nB\tSOURCE_FILE\t0\t22\nB\tERROR\t0\t0\nB\tERROR\t0\t0\nE\tERROR\t0\t0\nE\tERROR\t0\t0\n\
    E\tSOURCE_FILE\t0\t22\nR\t1\t0\t0\n";

/// P1 to P9, small files of request (ii), and the sizes that document 01 asks to be run.
pub fn small(side: &dyn Side) -> Checked {
    for file in &SMALL {
        let reading =
            reading_of(side, &question(file.text, file.fuel)).map_err(|n| format!("refused, {n}"))?;
        small_file(file, &reading).map_err(|e| format!("{}: {e}", file.label))?;
    }
    let p4 = reading_of(side, &question(R, 1)).unwrap();
    same_lines("P4", &listing(&p4, &p4.merged), P4)?;
    let p8 = reading_of(side, &question(SMALL[7].text, 6)).unwrap();
    expect("P8", p8.raw.iter().filter(|e| e[..2] == [BEGIN, kind::RULE_DECL]).count() == 1)?;
    let p9 = counted([[BEGIN, 87, 0, 1], [END, 87, 0, 1], [BEGIN, 87, 1, 3], [END, 87, 1, 3]]).concat();
    let p9 = side.merge(&p9, 2 * EVENT);
    expect("P9", p9.room == [BEGIN, kind::ERROR, 0, 3, 0, END, kind::ERROR, 0, 3, 0] && p9.count == 2)?;
    sizes(side)
}

/// The UTF-8 test on every sequence of up to three bytes, and on every first byte with three bytes at limits;
/// how many these are.
pub fn texts() -> Result<usize, String> {
    let mut count = 0;
    let mut judged = |text: &[u8]| {
        count += 1;
        let (ours, rust) = (utf8::bad_byte(text), oracle::bad_byte(text));
        (ours == rust).then_some(()).ok_or_else(|| format!("the bad byte of {text:02X?}: {ours:?}, {rust:?}"))
    };
    for length in 1..=3 {
        for number in 0..1_u32 << (8 * length) {
            judged(&number.to_be_bytes()[4 - length..])?;
        }
    }
    for number in 0..256 * OTHERS.len().pow(3) {
        let other = |place: u32| OTHERS[number / OTHERS.len().pow(place) % OTHERS.len()];
        judged(&[(number / OTHERS.len().pow(3)) as u8, other(2), other(1), other(0)])?;
    }
    Ok(count)
}

fn small_file(file: &Small, reading: &Reading) -> Checked {
    let record = |(start, end, form, names): &(u32, u32, u32, &[u32])| Record {
        start: *start,
        end: *end,
        form: *form,
        item: 1,
        names: names.to_vec(),
        place: None,
    };
    expect("answer", (reading.outcome, reading.rows, reading.fuel) == (file.outcome, file.rows, file.left))?;
    expect("events", file.events.is_none_or(|n| n == reading.raw.len()))?;
    expect("errors", reading.records == file.errors.iter().map(record).collect::<Vec<_>>())
}

fn expect(what: &str, holds: bool) -> Checked {
    if holds {
        Ok(())
    } else {
        Err(what.into())
    }
}

/// Found text of 15 and 16 bytes; 65,536 and 65,537 rows; a room exact and five less; node 1,024 and 1,025.
fn sizes(side: &dyn Side) -> Checked {
    for (length, form) in [(15, 1), (16, 2)] {
        let found = "x".repeat(length);
        let reading = reading_of(side, &question(&format!("rule~ ~{found}~{found}"), 9)).unwrap();
        expect("found text", reading.records[0].form == form)?;
    }
    for (rows, refusal) in [(65_536, 0), (65_537, 1)] {
        let rows = vec![(id::IDENT, b"x".to_vec()); rows];
        expect("rows", side.read(&Question::new(&rows, 0)).refusal == refusal)?;
    }
    for (room, refusal) in [(18 * EVENT, 0), (17 * EVENT, 7)] {
        let exact = Question { event_room: room, ..question(R, 5) };
        expect("room", side.read(&exact).refusal == refusal)?;
    }
    for (signs, outcome) in [(1_016, 0), (1_017, 2)] {
        let deep = question(&format!("rule~ ~a~{{~condition~:~{}1~}}", "-~".repeat(signs)), 100_000);
        expect("depth", side.read(&deep).answer[0] == outcome)?;
    }
    Ok(())
}
